; How the proved code gets memory: over malloc, realloc and free. dist/texts.py adds this to each text, as local functions.
;
; The first two return whether they got a block of `size` bytes, and its address; where they got none, an address that is never
; read. For no bytes they ask for as many as the alignment, which is at most 16: malloc's own.

@rattle_none = internal constant [16 x i8] zeroinitializer, align 16
@llvm.compiler.used = appending global [3 x ptr] [ptr @rattle_alloc, ptr @rattle_realloc, ptr @rattle_dealloc]

declare ptr @malloc(i64)
declare ptr @realloc(ptr, i64)
declare void @free(ptr)

define private i64 @room(i64 %size, i64 %align) #1 {
  %is_empty = icmp eq i64 %size, 0
  %room = select i1 %is_empty, i64 %align, i64 %size
  ret i64 %room
}

define private { i64, i64 } @answer(ptr %block) #1 {
  %is_there = icmp ne ptr %block, null
  %ok = zext i1 %is_there to i64
  %at = select i1 %is_there, ptr %block, ptr @rattle_none
  %address = ptrtoint ptr %at to i64
  %first = insertvalue { i64, i64 } poison, i64 %ok, 0
  %both = insertvalue { i64, i64 } %first, i64 %address, 1
  ret { i64, i64 } %both
}

define hidden { i64, i64 } @rattle_alloc(i64 %size, i64 %align) #0 {
  %room = call i64 @room(i64 %size, i64 %align)
  %block = call ptr @malloc(i64 %room)
  %answer = call { i64, i64 } @answer(ptr %block)
  ret { i64, i64 } %answer
}

; Its first `kept` bytes stay; where it gets none, the old block stays as it was.
define hidden { i64, i64 } @rattle_realloc(ptr %old, i64 %kept, i64 %size, i64 %align) #0 {
  %room = call i64 @room(i64 %size, i64 %align)
  %block = call ptr @realloc(ptr %old, i64 %room)
  %answer = call { i64, i64 } @answer(ptr %block)
  ret { i64, i64 } %answer
}

define hidden void @rattle_dealloc(ptr %block) #0 {
  call void @free(ptr %block)
  ret void
}

attributes #0 = { nounwind uwtable }
attributes #1 = { alwaysinline nounwind uwtable }

// SPDX-License-Identifier: Apache-2.0
//! The proved functions, as text for the assembler of rustc, and which targets they aren't for.
//! dist/README.md says what each file is. README.md has a table of targets, which dist/systems.py
//! compares with this file.

use core::arch::global_asm;

/// Refuses the targets of the condition.
macro_rules! refuse {
    ($condition:meta, $why:literal) => {
        #[cfg($condition)]
        compile_error!(concat!("davgyuti has no text for this target: ", $why));
    };
}

/// Takes the file of a processor on these systems; refuses the systems that its files don't name.
macro_rules! texts {
    ($($arch:tt, $file:literal, [$($system:tt),*] $(, $syntax:ident)?;)*) => {
        $(
            #[cfg(all(target_arch = $arch, any($(target_os = $system),*)))]
            mod taken {
                // Without the note that the object is fit for IBT or BTI: it also holds what rustc compiles.
                super::global_asm!(
                    ".set dcsctp_without_note, 1",
                    include_str!(concat!(env!("DCSCTP_TEXTS"), "/", $file)),
                    options($($syntax,)? raw)
                );
            }
        )*
        refuse!(
            all(
                any(target_arch = "x86_64", target_arch = "aarch64"),
                not(any($(all(target_arch = $arch, any($(target_os = $system),*))),*))
            ),
            "it isn't known of any text that it keeps what this system asks of machine code"
        );
    };
}

// That of x86-64 for ELF uses the red zone and the registers of SSE; those of arm64 keep x18.
texts! {
    "x86_64", "dcsctp-x86_64-elf.s", [
        "linux", "android", "freebsd", "netbsd", "dragonfly", "fuchsia", "illumos", "solaris"
    ], att_syntax;
    "x86_64", "dcsctp-x86_64-none.s", ["none"], att_syntax;
    "x86_64", "dcsctp-x86_64-macho.s", ["macos", "ios", "tvos", "watchos"], att_syntax;
    "x86_64", "dcsctp-x86_64-coff.s", ["windows"], att_syntax;
    "aarch64", "dcsctp-aarch64-elf.s", [
        "linux", "android", "freebsd", "netbsd", "fuchsia", "illumos", "none"
    ];
    "aarch64", "dcsctp-aarch64-macho.s", ["macos", "ios", "tvos", "watchos", "visionos"];
}

refuse!(
    not(any(target_arch = "x86_64", target_arch = "aarch64")),
    "its processor is neither x86-64 nor arm64"
);
refuse!(
    all(target_arch = "x86_64", any(target_os = "vxworks", target_vendor = "unikraft")),
    "that of x86-64 uses the red zone, which an interrupt may overwrite here"
);
refuse!(target_os = "openbsd", "there each indirect jump needs an endbr64 or a bti at its target");
refuse!(
    target_env = "sgx",
    "an enclave needs loads that are hardened, and those of the texts aren't"
);
refuse!(
    all(target_arch = "aarch64", any(target_os = "windows", target_os = "uefi")),
    "there is none in COFF for arm64"
);
refuse!(
    any(
        all(target_arch = "x86_64", not(target_feature = "sse2"), not(target_os = "none")),
        all(target_arch = "aarch64", not(target_feature = "neon"))
    ),
    "it has soft float, and the text uses the registers of SSE or NEON"
);
refuse!(not(target_pointer_width = "64"), "its pointers don't have 64 bits");
refuse!(
    target_endian = "big",
    "it has the most significant byte first, and the texts are for the least significant one"
);

# SPDX-License-Identifier: Apache-2.0
"""What parameters and error causes hold, for kinds.rs of the package for Rust."""
from languages import rust_kinds as kinds, rust_values as values
from languages.rust_words import LICENSE, Sample, about, arm, call, camel, docs, example, identifier, literal, literal_arm
from languages.words import reference
from layouts import kinds_of, size_of


def results(table):
    rows = [(camel(row.identifier), row) for row in table['result']]
    last = rows[-1][1].number
    return f'''
/// The result in a Re-configuration Response (RFC 6525 section 4.4).
///
/// ```
/// use davgyuti::{{ReConfigResult, UnknownNumber}};
///
/// assert_eq!(ReConfigResult::try_from({last}), Ok(ReConfigResult::{rows[-1][0]}));
/// assert_eq!(ReConfigResult::try_from({last + 1}), Err(UnknownNumber({last + 1})));
/// assert_eq!(u32::from(ReConfigResult::Denied), 2);
/// ```
#[derive(Clone, Copy, PartialEq, Eq, Hash, Debug)]
#[non_exhaustive]
pub enum ReConfigResult {{
{''.join(docs(f'{row.name}.', 4) + f'    {name} = {row.number},{chr(10)}' for name, row in rows)}}}

impl ReConfigResult {{
    /// Returns the number that the response carries.
    ///
    /// ```
    /// assert_eq!(davgyuti::ReConfigResult::Performed.number(), 1);
    /// ```
    #[must_use]
    pub const fn number(self) -> u32 {{
        self as u32
    }}

    /// Returns the result of a number; none of one that has no name.
    ///
    /// ```
    /// use davgyuti::ReConfigResult;
    ///
    /// assert_eq!(ReConfigResult::of(2), Some(ReConfigResult::Denied));
    /// assert_eq!(ReConfigResult::of({last + 1}), None);
    /// ```
    #[must_use]
    pub const fn of(number: u32) -> Option<Self> {{
        Some(match number {{
{''.join(f'            {row.number} => Self::{name},{chr(10)}' for name, row in rows)}            _ => return None,
        }})
    }}
}}

impl TryFrom<u32> for ReConfigResult {{
    type Error = UnknownNumber;

    fn try_from(number: u32) -> Result<Self, UnknownNumber> {{
        Self::of(number).ok_or(UnknownNumber(number))
    }}
}}

impl From<ReConfigResult> for u32 {{
    fn from(result: ReConfigResult) -> Self {{
        result.number()
    }}
}}
'''


def fields_of(row, records):
    """The fields of a variant: the name, the type, and what is said of it."""
    return [(identifier(it.name), 'Streams' if it.what == 'list' else kinds.type_of(it, records), about(it))
            for it in row.layout.fields if it.name and it.what != 'count']


def variant(row, records):
    lines = ''.join(docs(said, 8) + f'        {name}: {typ},\n' for name, typ, said in fields_of(row, records))
    return f'{docs(f"{row.name} ({reference(row)}).", 4)}    {camel(row.identifier)} {{\n{lines}    }},\n'


def mapped(row, records):
    """The arm that gives a request other streams."""
    names = [name for name, _, _ in fields_of(row, records)]
    name, other = camel(row.identifier), [f'{it}: map(streams)' if it == 'streams' else it for it in names]
    return literal_arm(12, f'Self::{name} {{ {", ".join(names)} }}', f'ReConfig::{name} ', other)


def read_arm(row, records):
    """The arm that reads a request."""
    lines, more = kinds.steps(row, records, 'self.value()')
    shown = kinds.shorthand([*kinds.fields_read(row.layout),
                             *((name, f'{kind} {{ bytes: {value}, size: {size} }}' if kind else value) for name, value, kind, size in more)])
    return (f'            ParameterType::{row.identifier} => {{\n' + ''.join(f'                {line}\n' for line in lines) +
            call(16, f'ReConfig::{camel(row.identifier)} {{ ', shown, ' }') + '            }\n')


def requests(table):
    records, rows = table['records'], [row for row in kinds_of(table, 'parameter') if row.struct == 're_config']
    single = next(row for row in rows if len(row.layout.fields) == 1)
    sample = Sample(single, records)
    name, (field, value) = camel(single.identifier), (identifier(single.layout.fields[0].name), list(sample.values.values())[0])
    types = ''.join(arm(12, f'Self::{camel(row.identifier)} {{ .. }}', f'ParameterType::{row.identifier}') for row in rows)
    return f'''
/// A request or the response of RE-CONFIG (RFC 6525 section 4).
///
/// The streams of the two requests that name some are a [`ResetStreams`] where they are read, and a
/// slice of `u16`, or any list of them, where they are written. A request that names no stream is
/// for all of them.
///
/// ```
/// use davgyuti::ReConfig;
///
/// fn request_number<Streams>(it: &ReConfig<Streams>) -> Option<u32> {{
///     match *it {{
///         ReConfig::OutgoingSsnReset {{ request_number, .. }}
///         | ReConfig::IncomingSsnReset {{ request_number, .. }} => Some(request_number),
///         _ => None,
///     }}
/// }}
///
/// // For all streams: it names none.
/// let request = ReConfig::IncomingSsnReset {{ request_number: 1, streams: &[] as &[u16] }};
/// assert_eq!(request_number(&request), Some(1));
/// ```
#[derive(Clone, Copy, PartialEq, Eq, Hash, Debug)]
#[non_exhaustive]
pub enum ReConfig<Streams> {{
{''.join(variant(row, records) for row in rows)}}}

impl<Streams> ReConfig<Streams> {{
    /// Returns the type of the parameter (RFC 6525 section 4).
    ///
    /// ```
    /// use davgyuti::{{ParameterType, ReConfig}};
    ///
    /// let request = ReConfig::<&[u16]>::{name} {{ {field}: {value} }};
    /// assert_eq!(request.parameter_type(), ParameterType::{single.identifier});
    /// ```
    #[must_use]
    pub const fn parameter_type(&self) -> ParameterType {{
        match self {{
{types}        }}
    }}

    /// Returns the same with other streams (RFC 6525 section 4): made of those that it has, if its
    /// kind has some.
    ///
    /// ```
    /// use davgyuti::ReConfig;
    ///
    /// let request = ReConfig::IncomingSsnReset {{ request_number: 1, streams: vec![2, 3] }};
    /// let count = request.map_streams(|streams| streams.len());
    /// assert_eq!(count, ReConfig::IncomingSsnReset {{ request_number: 1, streams: 2 }});
    /// ```
    pub fn map_streams<T>(self, map: impl FnOnce(Streams) -> T) -> ReConfig<T> {{
        match self {{
{''.join(mapped(row, records) for row in rows)}        }}
    }}
}}

impl<'a> Parameter<'a> {{
    /// Returns the request or the response of RE-CONFIG (RFC 6525 section 4) that the parameter is.
    ///
    /// ```
    /// use davgyuti::ReConfig;
    ///
    /// let mut parameters = davgyuti::Parameters::of({literal(sample.padded)[1:]});
    /// let request = parameters.next().unwrap().re_config();
    /// assert!(matches!(request, Some(ReConfig::{name} {{ {field}: {value} }})));
    /// ```
    #[doc(alias = "dcsctp_re_config")]
    #[must_use]
    #[inline]
    pub fn re_config(&self) -> Option<ReConfig<ResetStreams<'a>>> {{
        Some(match self.parameter_type() {{
{''.join(read_arm(row, records) for row in rows)}            _ => return None,
        }})
    }}
}}
'''


def listed_causes(table):
    """The methods of Cause that read a list of numbers."""
    texts = []
    for row in kinds_of(table, 'cause'):
        for it in row.layout.lists:
            name, kind = kinds.list_of(row, it)
            lines, _ = kinds.steps(row, table['records'], 'self.value()')
            sample = Sample(row, table['records'])
            shown = [f'let mut causes = davgyuti::Causes::of({literal(sample.padded)[1:]});',
                     f'assert!(causes.next().unwrap().{name}().eq([{sample.values[it.name]}]));']
            texts.append(f'''\
{docs(f'Returns the types of the cause {row.name} ({reference(row)}); other causes have none.', 4)}{example(shown, 4)}    #[must_use]
    #[inline]
    pub fn {name}(&self) -> {kind}<'a> {{
        {kind} {{ bytes: self.{identifier(it.name)}().unwrap_or_default(), size: {size_of(it.form, table['records'])} }}
    }}

    #[inline]
    fn {identifier(it.name)}(&self) -> Option<&'a [u8]> {{
        if self.code() != CauseCode::{row.identifier} {{
            return None;
        }}
{''.join(f'        {line}{chr(10)}' for line in lines)}        Some(rest)
    }}
''')
    return "\nimpl<'a> Cause<'a> {\n" + '\n'.join(texts) + '}\n'


def shown_item(table, level, name, number, method):
    """What `{:?}` shows of a parameter or an error cause: its field by its name, where there is one."""
    arms = []
    for row in kinds_of(table, level):
        fields = [it for it in row.layout.fields if it.name and it.what != 'count']
        if getattr(row, 'struct', '-') != '-' or len(fields) != 1:
            continue
        it, key = fields[0], identifier(fields[0].name)
        if it.what == 'list':
            value, guard = f'&self.{kinds.list_of(row, it)[0]}()', ''
        elif it.what == 'number':
            value, guard = '&number', 'number'
        else:
            value, guard = f'&{"ChunkTypes" if key == "chunk_types" else "Bytes"}(self.value())', ''
        arms.append(arm(12, f'({number}::{row.identifier}, {"Some(number)" if guard else "_"})', f'shown.field("{key}", {value})'))
    first = '''\
        if let Some(it) = self.re_config() {
            return shown.field("content", &it).finish();
        }
''' if level == 'parameter' else ''
    return f'''
impl Debug for {name}<'_> {{
    fn fmt(&self, f: &mut Formatter<'_>) -> Shown {{
        let mut shown = f.debug_struct("{name}");
        shown.field("{'type' if level == 'parameter' else 'code'}", &self.{method}());
{first}        match (self.{method}(), self.number()) {{
{''.join(arms)}            _ => shown.field("value", &Bytes(self.value())),
        }}
        .finish()
    }}
}}
'''


def rust_kinds(table):
    records = table['records']
    structs = kinds.groups(table, 'chunk')
    return ''.join([
        LICENSE, kinds.FRONT, values.shared_flags(table),
        *(values.record(it, records) for it in kinds.records_of(table)), *(values.struct_text(it, records) for it in structs),
        values.iterators(table), values.contents(table), values.chunk_methods(table), results(table), requests(table), listed_causes(table),
        shown_item(table, 'parameter', 'Parameter', 'ParameterType', 'parameter_type'),
        shown_item(table, 'cause', 'Cause', 'CauseCode', 'code')])

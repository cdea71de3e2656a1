//! The library's record and the independent implementation's are two types with the same fields.

/// A record of the one type with the fields of the other.
macro_rules! same_fields {
    ($record:ident, $from:expr) => {
        $record {
            status: $from.status,
            field: $from.field,
            form: $from.form,
            state: $from.state,
            words: $from.words,
            count: $from.count,
            phase: $from.phase,
            done: $from.done,
            absorb_position: $from.absorb_position,
            squeeze_position: $from.squeeze_position,
            permutations: $from.permutations,
        }
    };
}

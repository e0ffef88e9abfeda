//! How values are made of nodes: a macro for each kind of type. The modules of types have one line of them a type.

/// `parse` of a type that a rule reads.
macro_rules! read_by {
    ($rule:ident) => {
        const __RULE: u16 = $crate::rules::$rule;

        #[inline]
        fn parse(input: &'a str) -> $crate::IResult<&'a str, Self> {
            $crate::cursor::parse(input)
        }
    };
}

/// A terminal: a keyword or a symbol.
macro_rules! terminal {
    ($own:ident = $rule:ident) => {
        impl<'a> $crate::Parse<'a> for $own {
            read_by!($rule);

            #[inline]
            fn __build(at: &mut $crate::cursor::Cursor<'a>) -> Self {
                at.skip();
                $own
            }
        }
    };
}

/// A struct with named fields. What follows `;` is read only where the field before it is there.
macro_rules! record {
    ($own:ty = $rule:ident { $($field:ident),+ $(; $last:ident)? }) => {
        impl<'a> $crate::Parse<'a> for $own {
            read_by!($rule);

            fn __build(at: &mut $crate::cursor::Cursor<'a>) -> Self {
                let _depth = at.enter();
                $(let $field = $crate::Parse::__build(at);)+
                $(let $last = at.last(_depth);)?
                Self { $($field,)+ $($last,)? }
            }
        }
    };
}

/// A tuple struct over a type.
macro_rules! wrapped {
    ($own:ty = $rule:ident) => {
        impl<'a> $crate::Parse<'a> for $own {
            read_by!($rule);

            fn __build(at: &mut $crate::cursor::Cursor<'a>) -> Self {
                at.enter();
                Self($crate::Parse::__build(at))
            }
        }
    };
}

/// A tuple struct over what a rule below its own reads of the text.
macro_rules! kept {
    ($own:ty = $rule:ident { $kept:ident }) => {
        impl<'a> $crate::Parse<'a> for $own {
            read_by!($rule);

            #[inline]
            fn __build(at: &mut $crate::cursor::Cursor<'a>) -> Self {
                Self(at.kept($crate::rules::$kept))
            }
        }
    };
}

/// A docstring.
macro_rules! lines {
    ($own:ty = $rule:ident) => {
        impl<'a> $crate::Parse<'a> for $own {
            read_by!($rule);

            fn __build(at: &mut $crate::cursor::Cursor<'a>) -> Self {
                Self(at.lines())
            }
        }
    };
}

/// `true` or `false`.
macro_rules! truth {
    ($own:ty = $rule:ident) => {
        impl<'a> $crate::Parse<'a> for $own {
            read_by!($rule);

            fn __build(at: &mut $crate::cursor::Cursor<'a>) -> Self {
                Self(at.truth())
            }
        }
    };
}

/// An enum, by its variants: which one it is, the rule of the node below says.
macro_rules! choice {
    ($own:ident<$life:lifetime> = $rule:ident { $($variant:ident($member:ty)),+ $(,)? }) => {
        choice!(@parse $own<$life>, $rule, $($variant($member)),+);
        $(impl<$life> From<$member> for $own<$life> {
            fn from(it: $member) -> Self {
                Self::$variant(it)
            }
        })+
    };
    ($own:ident = $rule:ident { $($variant:ident($member:ty)),+ $(,)? }) => {
        choice!(@parse $own, $rule, $($variant($member)),+);
        $(impl From<$member> for $own {
            fn from(it: $member) -> Self {
                Self::$variant(it)
            }
        })+
    };
    (@parse $own:ty, $rule:ident, $($variant:ident($member:ty)),+) => {
        impl<'a> $crate::Parse<'a> for $own {
            read_by!($rule);

            fn __build(at: &mut $crate::cursor::Cursor<'a>) -> Self {
                let rule = at.choice();
                $(if rule == u32::from(<$member as $crate::Parse<'a>>::__RULE) {
                    return Self::$variant($crate::Parse::__build(at));
                })+
                unreachable!("no variant is read by the rule {rule}")
            }
        }
    };
}

/// A struct over a type: read by a rule where the grammar has one over that of the type, else field by field.
macro_rules! generic {
    ($own:ident = $rule_over:ident { $first:ident, $($field:ident),+ }) => {
        impl<'a, T: $crate::Parse<'a>> $crate::Parse<'a> for $own<T> {
            const __RULE: u16 = $crate::rules::$rule_over(T::__RULE);

            fn parse(input: &'a str) -> $crate::IResult<&'a str, Self> {
                if Self::__RULE != $crate::rules::NONE {
                    return $crate::cursor::parse(input);
                }
                let (rest, $first) = $crate::Parse::parse(input)?;
                $(let (rest, $field) = $crate::Parse::parse(rest)?;)+
                Ok((rest, Self { $first, $($field),+ }))
            }

            fn __build(at: &mut $crate::cursor::Cursor<'a>) -> Self {
                at.enter();
                let $first = $crate::Parse::__build(at);
                $(let $field = $crate::Parse::__build(at);)+
                Self { $first, $($field),+ }
            }
        }
    };
}

/// Items with a separator between each two: read by a rule where the grammar has one, else one after another.
macro_rules! punctuated {
    ($own:ident) => {
        impl<'a, T, S> $crate::Parse<'a> for $own<T, S>
        where
            T: $crate::Parse<'a>,
            S: $crate::Parse<'a> + ::std::default::Default,
        {
            const __RULE: u16 = $crate::rules::punctuated(T::__RULE, S::__RULE);

            fn parse(input: &'a str) -> $crate::IResult<&'a str, Self> {
                if Self::__RULE != $crate::rules::NONE {
                    return $crate::cursor::parse(input);
                }
                let (rest, list) = nom::multi::separated_list0(S::parse, T::parse)(input)?;
                let separator = S::default();
                Ok((rest, Self { list, separator }))
            }

            fn __build(at: &mut $crate::cursor::Cursor<'a>) -> Self {
                let list = at.items();
                let separator = S::default();
                Self { list, separator }
            }
        }
    };
}

/// The same with one item at least, and with a separator behind the last where present.
macro_rules! punctuated_non_empty {
    ($own:ident) => {
        impl<'a, T, S> $crate::Parse<'a> for $own<T, S>
        where
            T: $crate::Parse<'a>,
            S: $crate::Parse<'a> + ::std::default::Default,
        {
            const __RULE: u16 = $crate::rules::punctuated_non_empty(T::__RULE, S::__RULE);

            fn parse(input: &'a str) -> $crate::IResult<&'a str, Self> {
                if Self::__RULE != $crate::rules::NONE {
                    return $crate::cursor::parse(input);
                }
                let (rest, list) = nom::multi::separated_list1(S::parse, T::parse)(input)?;
                let (rest, _) = nom::combinator::opt(S::parse)(rest)?;
                let separator = S::default();
                Ok((rest, Self { list, separator }))
            }

            fn __build(at: &mut $crate::cursor::Cursor<'a>) -> Self {
                at.enter();
                let list = at.items();
                at.skip();
                let separator = S::default();
                Self { list, separator }
            }
        }
    };
}

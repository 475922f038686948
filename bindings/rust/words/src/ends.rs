//! What the ends of both crates have in common, and what their errors have.

/// The kinds of ends, and the calls on them whose bodies are the same. An `End` has `key` and `collection`, and
/// makes these calls by `asks(kind)`, whose fields can be set, `make(call)`, `track(call)` and `birth(kind, label)`.
#[doc(hidden)]
#[macro_export]
macro_rules! ends {
    ($call:ident) => {
        mod sealed {
            pub trait Kind {}
        }
        pub(crate) use sealed::Kind;

        /// The kind of a [`Token`].
        #[derive(Debug)]
        pub enum OfToken {}
        /// The kind of a [`Collection`].
        #[derive(Debug)]
        pub enum OfCollection {}
        impl Kind for OfToken {}
        impl Kind for OfCollection {}

        /// An end that is not bound.
        pub type Token = End<OfToken>;
        /// A bound end.
        pub type Collection = End<OfCollection>;

        impl<K: Kind> End<K> {
            /// The node.
            pub fn key(&self) -> Key {
                self.key
            }

            /// The node's collection.
            pub fn collection(&self) -> CollectionId {
                self.collection
            }

            /// Asks only whether the node has failed.
            pub fn sync(&self) -> Result<(), Error> {
                self.make(self.asks(kind::SYNC))
            }

            /// Makes the node weak, and each child that it gets from now on.
            pub fn set_weak(&self) -> Result<(), Error> {
                self.make(self.asks(kind::SET_WEAK))
            }

            /// Lets the node take weak handles; with `children` also each child that it gets from now on,
            /// and all nodes below these children.
            pub fn set_weak_ok(&self, children: bool) -> Result<(), Error> {
                let children = u8::from(children);
                self.make($call { children, ..self.asks(kind::SET_WEAK_OK) })
            }

            /// Makes a tracker that fires once the node is gone.
            pub fn track_node(&self) -> Result<Tracker, Error> {
                self.track(self.asks(kind::TRACK_NODE))
            }

            /// Does what the drop does: the node fails.
            pub fn close(self) {}
        }

        impl End<OfToken> {
            /// Makes a child token. The label may be empty.
            pub fn duplicate(&self, label: &str) -> Result<Token, Error> {
                self.birth(kind::DUPLICATE, label)
            }

            /// From the allocation of the node's unit on, no failure climbs from the node to its parent.
            pub fn set_dispensable(&self) -> Result<(), Error> {
                self.make(self.asks(kind::SET_DISPENSABLE))
            }
        }

        impl End<OfCollection> {
            /// Makes an attached child token: it heads a unit of its own, and its failure does not climb to
            /// this node. The label may be empty.
            pub fn attach_token(&self, label: &str) -> Result<Token, Error> {
                self.birth(kind::ATTACH_TOKEN, label)
            }

            /// Sends the node's constraints.
            pub fn set_constraints(&self, wanted: Constraints) -> Result<(), Error> {
                let Constraints { camping, at_least, size } = wanted;
                let call = self.asks(kind::SET_CONSTRAINTS);
                self.make($call { camping, at_least, size, ..call })
            }

            /// Makes a tracker that fires once the node's unit is allocated and at most `left` buffers of
            /// the collection hold pages, or once the node is gone before that allocation.
            pub fn track_lifetime(&self, left: u32) -> Result<Tracker, Error> {
                self.track($call { left, ..self.asks(kind::TRACK_LIFETIME) })
            }
        }
    };
}

/// How an `Error` is written, `f` being where; of the variants that only one crate has, the arms follow. And what a
/// call gives back with it.
#[doc(hidden)]
#[macro_export]
macro_rules! errors {
    ($f:ident: $($own:tt)*) => {
        impl std::fmt::Display for Error {
            fn fmt(&self, $f: &mut std::fmt::Formatter<'_>) -> std::fmt::Result {
                match self {
                    Error::Refused(refusal) => write!($f, "refused: {refusal}"),
                    Error::Misused(misuse) => write!($f, "misused: {misuse}"),
                    Error::PeerClosed { cause, origin, label, .. } => {
                        write!($f, "closed: {cause}, by node {origin}")?;
                        label.as_ref().map_or(Ok(()), |label| write!($f, " ({label})"))
                    }
                    Error::BadCall(range) => write!($f, "bad call: {range}"),
                    Error::HistoryFull => $f.write_str("history full"),
                    Error::NoMemory => $f.write_str("no memory"),
                    $($own)*
                }
            }
        }

        impl std::error::Error for Error {}

        /// A value that a refused call would have spent, and the error. The operator `?` turns it into an
        /// [`Error`] and drops the value: a token or a collection is then closed, and its node fails.
        pub type Back<T> = $crate::Back<T, Error>;

        impl<T> From<Back<T>> for Error {
            fn from(back: Back<T>) -> Error {
                back.error
            }
        }
    };
}

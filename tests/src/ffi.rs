//! The functions under test, a line each: those of the library, or those of the stand-in.

use std::sync::OnceLock;

use crate::standin;

/// From `CALL FUNCTION,` lines: the calls, their names as in the header, and the two functions of each.
macro_rules! calls {
    ($($call:ident $function:ident,)*) => {
        /// An exported function.
        #[derive(Clone, Copy, Debug, PartialEq, Eq)]
        pub enum Call {
            $($call,)*
        }

        pub const CALLS: [Call; [$(stringify!($call)),*].len()] = [$(Call::$call),*];

        impl Call {
            /// The function's name behind `simjorad_`.
            pub fn name(self) -> &'static str {
                match self {
                    $(Call::$call => &stringify!($function)["simjorad_".len()..],)*
                }
            }

            /// The function under test.
            pub fn function(self) -> *const () {
                match (self, stands_in()) {
                    $(
                        (Call::$call, true) => standin::$function as *const (),
                        (Call::$call, false) => $function as *const (),
                    )*
                }
            }
        }

        // Only the addresses are taken; what the functions are given stands where they are called.
        extern "C" {
            $(fn $function();)*
        }
    };
}

calls! {
    Read simjorad_read,
    ShowLine simjorad_show_line,
    Open simjorad_open,
    Evaluate simjorad_evaluate,
    Drive simjorad_drive,
    DriveIndexed simjorad_drive_indexed,
    Value simjorad_value,
    Line simjorad_line,
    Closed simjorad_closed,
    ClosedIndexed simjorad_closed_indexed,
    Layers simjorad_layers,
    CheckPicks simjorad_check_picks,
    OpenFirst simjorad_open_first,
    OpenSecond simjorad_open_second,
    EvaluateFirst simjorad_evaluate_first,
    EvaluateSecond simjorad_evaluate_second,
    Turn simjorad_turn,
    Followers simjorad_followers,
    SmallPage simjorad_small_page,
    Season simjorad_season,
}

/// Whether the stand-in is under test: the variable STANDIN_FAULT is set, to a fault or to nothing.
pub fn stands_in() -> bool {
    static STANDS_IN: OnceLock<bool> = OnceLock::new();
    *STANDS_IN.get_or_init(|| std::env::var_os("STANDIN_FAULT").is_some())
}

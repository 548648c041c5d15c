//! Calls of the archive.

use crate::raw;
use std::sync::OnceLock;

/// Panics unless the archive has the version of the header. It is asked once.
pub fn check_version() {
    static VERSION: OnceLock<u32> = OnceLock::new();
    // SAFETY: takes nothing.
    let version = *VERSION.get_or_init(|| unsafe { raw::cuzkelor_version() });
    if version != raw::CUZKELOR_VERSION {
        panic!("{}", other_version(version));
    }
}

fn other_version(version: u32) -> String {
    format!(
        "libhost.a has version {version} and this crate is for version {}: \
         link the archive that `tools/build.sh host` writes from the same sources",
        raw::CUZKELOR_VERSION
    )
}

/// Calls a function of the archive with a setup's numbers, buffers with their lengths, and more
/// arguments.
macro_rules! call {
    ($function:ident, $setup:expr, $pointer:ident of [$($buffer:expr),*] $(, $more:expr)* $(,)?) => {{
        $crate::archive::check_version();
        $crate::raw::$function(
            $setup.processors,
            $setup.lines,
            $setup.block_words,
            $setup.block_count,
            $setup.fetch_price,
            $setup.write_back_price,
            $($buffer.$pointer(), $buffer.len(),)*
            $($more,)*
        )
    }};
}
pub(crate) use call;

#[cfg(test)]
mod tests {
    #[test]
    fn this_version() {
        super::check_version();
    }

    #[test]
    fn another_version() {
        assert_eq!(
            super::other_version(1),
            "libhost.a has version 1 and this crate is for version 6: \
             link the archive that `tools/build.sh host` writes from the same sources"
        );
    }
}

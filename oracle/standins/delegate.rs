//! stand-in, not the oracle: the crate delegate, for the one form that russh uses.

#[macro_export]
macro_rules! delegate {
    (to $s:ident . $m:ident () { $( fn $f:ident (& $r:ident $(, $a:ident : $t:ty)*) -> $o:ty ; )* }) => {
        $( fn $f(&$r $(, $a: $t)*) -> $o { $s.$m().$f($($a),*) } )*
    };
}

//! Named questions about manifests whose definitions stand behind their uses, or
//! define a name again.

use crate::assemble::*;
use crate::why_named::{asking, shop, shown, told, Asking};

/// A class whose body gives a fee.
fn giving(class: &str, fee: Field) -> Field {
    class_definition(class, None, vec![], vec![assign("fee", fee)])
}

/// The value comes from a class that is defined last.
pub fn part_value_class_later() -> Asking {
    asking(vec![
        include("shop"),
        shown(class_var("shop", "fee")),
        giving("shop", told(int(7, 40))),
    ])
}

/// The value is the default of a type that is defined last.
pub fn part_value_default_later() -> Asking {
    let entry = built_in("kiosk", var("title"), vec![given("price", var("fee"))]);
    let fee = parameter("fee", Some(told(int(7, 40))));
    asking(vec![
        defined("booth", text(1, "front"), vec![]),
        type_definition("booth", vec![fee], vec![entry]),
    ])
}

/// The path goes "through declarations too", also of a class defined later.
pub fn part_path_class_later() -> Asking {
    asking(vec![
        if_else(told(boolean(7, true)), vec![include("shop")], vec![]),
        class_definition("shop", None, vec![], vec![shown(int(2, 40))]),
    ])
}

/// "the lowest place": the class's constant is met first and stands behind.
pub fn met_class_later() -> Asking {
    asking(vec![
        include("shop"),
        shown(told(int(7, 40))),
        giving("shop", int(7, 30)),
    ])
}

/// "bodies not run do not count": one stands before the class that is declared.
pub fn unmet_class_later() -> Asking {
    asking(vec![
        include("shop"),
        shown(class_var("shop", "fee")),
        giving("never", int(7, 30)),
        giving("shop", told(int(7, 40))),
    ])
}

/// A type defined later is never in the catalog.
pub fn no_resource_of_later_type() -> Asking {
    Asking {
        kind: "booth",
        ..asking(vec![
            defined("booth", text(1, "front"), vec![]),
            shown(int(7, 40)),
            type_definition("booth", vec![], vec![]),
        ])
    }
}

/// 8 comes before 27.
pub fn refused_twice() -> Asking {
    let shops = || shop(int(7, 40), vec![]);
    Asking {
        kind: "tablet",
        ..asking(vec![shops(), shown(int(7, 40)), told(shops())])
    }
}

/// 8 comes before the run, which would refuse 13.
pub fn refused_twice_before_run() -> Asking {
    asking(vec![
        shown(var("unset")),
        told(type_definition("kiosk", vec![], vec![])),
    ])
}

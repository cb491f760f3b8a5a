//! Help texts, a file each.

/// The text of a command, or of the tool.
pub fn text(command: Option<&str>) -> String {
    let own = match command {
        None => return include_str!("help/twill.txt").into(),
        Some("retrace") => include_str!("help/retrace.txt"),
        Some("straight") => include_str!("help/straight.txt"),
        Some("order") => include_str!("help/order.txt"),
        Some("start") => include_str!("help/start.txt"),
        Some("quote") => include_str!("help/quote.txt"),
        Some("check") => include_str!("help/check.txt"),
        // Of the plate options the first has one, the others none.
        Some("verify") => return include_str!("help/verify.txt").into(),
        Some("read") => return include_str!("help/read.txt").into(),
        Some("contours") => return include_str!("help/contours.txt").into(),
        Some("step") => include_str!("help/step.txt"),
        Some("view") => include_str!("help/view.txt"),
        Some(_) => return include_str!("help/distance.txt").into(),
    };
    [own, include_str!("help/plate.txt")].concat()
}

// Nothing asks for this module, so that its fault is never seen.
fn lost( {

import package::config::frame_rate;
import package::time::wrap::wrapped;

fn seconds(frame: u32) -> u32 {
    return wrapped(frame / frame_rate);
}

import super::value::value;
import package::config::octaves;

fn fbm(p: vec2f) -> f32 {
    var sum = 0.0;
    var weight = 0.5;
    var place = p;
    for (var i = 0u; i < octaves; i++) {
        sum += weight * value(place);
        place *= 2.0;
        weight *= 0.5;
    }
    return sum;
}

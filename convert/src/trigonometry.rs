//! Sine, cosine and arc tangent by the four operations and square roots alone. These are rounded the same on every
//! machine, while the system's own functions differ in the last digit from one library to the next.

pub const PI: f64 = std::f64::consts::PI;
pub const TURN: f64 = 2.0 * PI;

/// The sine and the cosine of an angle in radians.
pub fn sine_cosine(angle: f64) -> (f64, f64) {
    if !angle.is_finite() || angle.abs() > 1e9 {
        return (0.0, 1.0);
    }
    // The quarter turn in two parts, so that the remainder keeps its digits.
    const HIGH: f64 = 1.570_796_326_734_125_6;
    const LOW: f64 = 6.077_100_506_506_192e-11;
    let quarters = (angle / (PI / 2.0) + 0.5).floor();
    let rest = (angle - quarters * HIGH) - quarters * LOW;
    let (sine, cosine) = near_zero(rest);
    match (quarters as i64).rem_euclid(4) {
        0 => (sine, cosine),
        1 => (cosine, -sine),
        2 => (-sine, -cosine),
        _ => (-cosine, sine),
    }
}

/// By their series, for at most an eighth of a turn.
fn near_zero(angle: f64) -> (f64, f64) {
    let square = angle * angle;
    let (mut sine, mut cosine) = (0.0, 0.0);
    for k in (1..=10).rev() {
        let odd = f64::from(2 * k * (2 * k + 1));
        let even = f64::from(2 * k * (2 * k - 1));
        sine = -square / odd * (1.0 + sine);
        cosine = -square / even * (1.0 + cosine);
    }
    (angle * (1.0 + sine), 1.0 + cosine)
}

/// The angle of the direction (x, y), from -π to π.
pub fn angle_of(y: f64, x: f64) -> f64 {
    if !(x.is_finite() && y.is_finite()) || (x == 0.0 && y == 0.0) {
        return 0.0;
    }
    let (across, along) = (y.abs(), x.abs());
    let first = if across <= along {
        arc_tangent(across / along)
    } else {
        PI / 2.0 - arc_tangent(along / across)
    };
    let half = if x < 0.0 { PI - first } else { first };
    if y < 0.0 {
        -half
    } else {
        half
    }
}

/// The arc tangent of a number from 0 to 1: halved three times, then by its series.
fn arc_tangent(slope: f64) -> f64 {
    let mut t = slope;
    for _ in 0..3 {
        t /= 1.0 + (1.0 + t * t).sqrt();
    }
    let square = t * t;
    let mut sum = 0.0;
    for k in (0..=9).rev() {
        sum = 1.0 / f64::from(2 * k + 1) - square * sum;
    }
    8.0 * t * sum
}

/// The angle whose cosine is given.
pub fn arc_cosine(cosine: f64) -> f64 {
    let cosine = cosine.clamp(-1.0, 1.0);
    angle_of((1.0 - cosine * cosine).max(0.0).sqrt(), cosine)
}

#[cfg(test)]
mod tests {
    use super::*;

    #[test]
    fn they_agree_with_the_systems_functions() {
        for k in -2000..2000 {
            let angle = f64::from(k) * 0.0137;
            let (sine, cosine) = sine_cosine(angle);
            assert!((sine - angle.sin()).abs() < 1e-14, "sine of {angle}");
            assert!((cosine - angle.cos()).abs() < 1e-14, "cosine of {angle}");
            let back = angle_of(sine, cosine);
            let wanted = angle.sin().atan2(angle.cos());
            let difference = (back - wanted).abs();
            assert!(difference < 1e-13 || (difference - TURN).abs() < 1e-13);
        }
    }

    #[test]
    fn right_angles_are_exact() {
        assert!(sine_cosine(PI / 2.0).1.abs() < 1e-16);
        assert_eq!(sine_cosine(0.0), (0.0, 1.0));
        assert!((arc_cosine(0.5) - PI / 3.0).abs() < 1e-14);
    }
}

/// What each part takes, in nanoseconds, in the order of `ALL`. `bench/picker/run fit` measures the engine
/// and writes this file.
const NANOSECONDS: [f64; PARTS] = [
    0.000, 8.942, 17.551, 15.352, 0.419, 5.697, 8.100, 10.009, 0.000,
    8.462, 2.648, 12.745, 1.002, 0.337, 0.616, 9.753, 13.026, 29.795, 0.000,
];

//! What an engineer knows of a pipe, and what a job has of it.

use std::f64::consts::PI;

/// In metres and seconds.
pub struct PipeFigures {
    pub gravity: f64,
    pub wave_speed: f64,
    pub diameter: f64,
    /// Darcy's f.
    pub friction_factor: f64,
    pub step_time: f64,
}

impl PipeFigures {
    pub fn area(&self) -> f64 {
        PI * self.diameter * self.diameter / 4.0
    }

    /// S = g·A/a.
    pub fn s(&self) -> f64 {
        self.gravity * self.area() / self.wave_speed
    }

    /// R = f·dt/(2·D·A).
    pub fn r(&self) -> f64 {
        self.friction_factor * self.step_time / (2.0 * self.diameter * self.area())
    }

    /// The head that a steady flow loses along one reach.
    pub fn loss(&self, flow: f64) -> f64 {
        self.r() * flow * flow.abs() / self.s()
    }
}

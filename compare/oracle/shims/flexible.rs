//! Stands for the flexible solver of the device, which the twelve files declare and never call.

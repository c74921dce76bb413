//! Sets the cfgs of the base variant and names all those that the driver knows.

/// Not version 1, with the finite-state timeouts; every other feature is off.
const VERSION: &str = "3";
const ON: &[&str] = &["i2c_master_has_fsm_timeouts"];

const OFF: &[&str] = &[
    "i2c_master_can_estimate_nack_reason",
    "i2c_master_has_arbitration_en",
    "i2c_master_has_bus_timeout_enable",
    "i2c_master_has_conf_update",
    "i2c_master_has_hw_bus_clear",
    "i2c_master_has_pd_en",
    "i2c_master_has_reliable_fsm_reset",
    "i2c_master_has_tx_fifo_watermark",
    "i2c_master_i2c0",
    "i2c_master_i2c1",
    "i2c_master_separate_filter_config_registers",
    "soc_has_i2c1",
];

fn main() {
    println!("cargo::rerun-if-changed=build.rs");
    println!("cargo::rustc-check-cfg=cfg(i2c_master_version, values(\"1\", \"2\", \"3\", \"4\"))");
    println!("cargo::rustc-cfg=i2c_master_version=\"{VERSION}\"");
    for name in ON.iter().chain(OFF) {
        println!("cargo::rustc-check-cfg=cfg({name})");
    }
    for name in ON {
        println!("cargo::rustc-cfg={name}");
    }
}

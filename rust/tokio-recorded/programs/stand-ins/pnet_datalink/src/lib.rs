//! The network interfaces that one of hyper's tests asks for. This has the loopback alone.

use std::net::{IpAddr, Ipv4Addr, Ipv6Addr};

pub struct NetworkInterface {
    pub ips: Vec<IpNetwork>,
}

pub struct IpNetwork(IpAddr);

impl IpNetwork {
    pub fn ip(&self) -> IpAddr {
        self.0
    }
}

pub fn interfaces() -> Vec<NetworkInterface> {
    let ips = [Ipv4Addr::LOCALHOST.into(), Ipv6Addr::LOCALHOST.into()];
    vec![NetworkInterface {
        ips: ips.map(IpNetwork).into(),
    }]
}

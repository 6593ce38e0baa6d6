//! A port of the agent: UDP port 320 of an interface, over IPv4 (IEEE 1588-2019, annex C).

use std::ffi::{c_int, c_void, CString};
use std::io::{self, ErrorKind};
use std::mem::{size_of, size_of_val};
use std::net::{Ipv4Addr, SocketAddrV4, UdpSocket};
use std::os::fd::{AsRawFd, FromRawFd, OwnedFd};

const GENERAL_PORT: u16 = 320;
const GROUP: Ipv4Addr = Ipv4Addr::new(224, 0, 1, 129);

// Of Linux.
const AF_INET: c_int = 2;
const SOCK_DGRAM: c_int = 2;
const SOCK_CLOEXEC: c_int = 0o2_000_000;
const SOL_SOCKET: c_int = 1;
const SO_REUSEADDR: c_int = 2;
const SO_BINDTODEVICE: c_int = 25;
const IPPROTO_IP: c_int = 0;
const IP_MULTICAST_IF: c_int = 32;
const IP_MULTICAST_LOOP: c_int = 34;
const IP_ADD_MEMBERSHIP: c_int = 35;

/// `struct sockaddr_in`: its port and its address are big-endian.
#[repr(C)]
struct Address {
    family: u16,
    port: [u8; 2],
    address: [u8; 4],
    zeros: [u8; 8],
}

/// `struct ip_mreqn`
#[repr(C)]
struct Membership {
    group: [u8; 4],
    address: [u8; 4],
    interface: c_int,
}

extern "C" {
    fn socket(domain: c_int, kind: c_int, protocol: c_int) -> c_int;
    fn setsockopt(socket: c_int, level: c_int, option: c_int, value: *const c_void, size: u32) -> c_int;
    fn bind(socket: c_int, address: *const Address, size: u32) -> c_int;
    fn if_nametoindex(name: *const std::ffi::c_char) -> u32;
}

fn checked(status: c_int) -> io::Result<c_int> {
    if status < 0 {
        Err(io::Error::last_os_error())
    } else {
        Ok(status)
    }
}

fn set<T: ?Sized>(socket: &OwnedFd, level: c_int, option: c_int, value: &T) -> io::Result<()> {
    let size = size_of_val(value) as u32;
    // SAFETY: the value has this many octets, and the socket is open.
    checked(unsafe { setsockopt(socket.as_raw_fd(), level, option, std::ptr::from_ref(value).cast(), size) })?;
    Ok(())
}

/// A socket that hears what comes to the group on this interface, and sends there. It is bound to the group: what is sent by
/// unicast to port 320 of this host goes to one socket, which may be that of a `ptp4l`.
pub fn open(interface: &str) -> io::Result<UdpSocket> {
    let name = CString::new(interface)?;
    // SAFETY: the name ends with a zero.
    let index = unsafe { if_nametoindex(name.as_ptr()) };
    if index == 0 {
        return Err(ErrorKind::NotFound.into());
    }
    // SAFETY: the call takes numbers, and what it answers is owned by nobody else.
    let socket = unsafe { OwnedFd::from_raw_fd(checked(socket(AF_INET, SOCK_DGRAM | SOCK_CLOEXEC, 0))?) };
    set(&socket, SOL_SOCKET, SO_REUSEADDR, &1)?;
    set(&socket, SOL_SOCKET, SO_BINDTODEVICE, name.as_bytes_with_nul())?;
    let group = Address { family: AF_INET as u16, port: GENERAL_PORT.to_be_bytes(), address: GROUP.octets(), zeros: [0; 8] };
    // SAFETY: the address has the layout that its family asks.
    checked(unsafe { bind(socket.as_raw_fd(), &group, size_of::<Address>() as u32) })?;
    let membership = Membership { group: GROUP.octets(), address: [0; 4], interface: index as c_int };
    set(&socket, IPPROTO_IP, IP_ADD_MEMBERSHIP, &membership)?;
    set(&socket, IPPROTO_IP, IP_MULTICAST_IF, &membership)?;
    set(&socket, IPPROTO_IP, IP_MULTICAST_LOOP, &0)?;
    Ok(socket.into())
}

/// Sends a message to every clock at the port's interface. What a socket does not take is dropped: a manager asks again.
pub fn send(socket: &UdpSocket, octets: &[u8]) {
    let _ = socket.send_to(octets, SocketAddrV4::new(GROUP, GENERAL_PORT));
}

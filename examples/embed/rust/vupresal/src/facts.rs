use std::net::{IpAddr, SocketAddr};
use vupresal_sys as sys;

/// What is known of a connection; a rule on an absent fact does not match.
#[derive(Clone, Debug, PartialEq, Eq)]
pub struct Facts {
    /// `http` or `https`.
    pub scheme: String,
    /// The client's end of the connection.
    pub source: Option<SocketAddr>,
    /// This end of the connection.
    pub destination: Option<SocketAddr>,
    /// The address of the peer.
    pub direct_remote_ip: Option<IpAddr>,
    /// The address of the client, as it was found.
    pub remote_ip: Option<IpAddr>,
    /// The server's name of TLS.
    pub requested_server_name: Option<String>,
    /// As `TLSv1.3`.
    pub tls_version: Option<String>,
    /// The subject of the client's certificate.
    pub subject_peer_certificate: Option<String>,
    /// A DNS name of the client's certificate.
    pub dns_san_peer_certificate: Option<String>,
    /// A URI of the client's certificate.
    pub uri_san_peer_certificate: Option<String>,
    /// Whether both ends showed a certificate.
    pub mtls: Option<bool>,
    /// The number of the connection.
    pub connection_id: Option<u64>,
}

impl Default for Facts {
    fn default() -> Self {
        Self {
            scheme: String::from("http"),
            source: None,
            destination: None,
            direct_remote_ip: None,
            remote_ip: None,
            requested_server_name: None,
            tls_version: None,
            subject_peer_certificate: None,
            dns_san_peer_certificate: None,
            uri_san_peer_certificate: None,
            mtls: None,
            connection_id: None,
        }
    }
}

/// An address that is IPv4 written as IPv6, as one of IPv4.
fn plain(address: IpAddr) -> IpAddr {
    match address {
        IpAddr::V6(six) => match six.octets() {
            [0, 0, 0, 0, 0, 0, 0, 0, 0, 0, 0xff, 0xff, a, b, c, d] => IpAddr::from([a, b, c, d]),
            _ => address,
        },
        IpAddr::V4(_) => address,
    }
}

/// The bytes of an address, and how many they are.
fn octets(address: Option<IpAddr>) -> ([u8; 16], usize) {
    let mut bytes = [0; 16];
    match address {
        None => (bytes, 0),
        Some(IpAddr::V4(four)) => {
            bytes[..4].copy_from_slice(&four.octets());
            (bytes, 4)
        }
        Some(IpAddr::V6(six)) => (six.octets(), 16),
    }
}

fn text_of(text: Option<&str>) -> sys::vupresal_text {
    sys::vupresal_text { bytes: super::bytes_of(text.unwrap_or("").as_bytes()), is_there: text.is_some() }
}

fn endpoint(at: Option<SocketAddr>) -> Option<String> {
    at.map(|at| SocketAddr::new(plain(at.ip()), at.port()).to_string())
}

fn port(at: Option<SocketAddr>) -> i32 {
    at.map_or(-1, |at| i32::from(at.port()))
}

impl Facts {
    /// Calls the function with the facts as C has them.
    pub(crate) fn with<R>(&self, call: impl FnOnce(&sys::vupresal_facts) -> R) -> R {
        let (source, destination) = (endpoint(self.source), endpoint(self.destination));
        let direct = octets(self.direct_remote_ip);
        let remote = octets(self.remote_ip);
        let local = octets(self.destination.map(|at| at.ip()));
        call(&sys::vupresal_facts {
            scheme: super::bytes_of(self.scheme.as_bytes()),
            source_address: text_of(source.as_deref()),
            destination_address: text_of(destination.as_deref()),
            requested_server_name: text_of(self.requested_server_name.as_deref()),
            tls_version: text_of(self.tls_version.as_deref()),
            subject_peer_certificate: text_of(self.subject_peer_certificate.as_deref()),
            dns_san_peer_certificate: text_of(self.dns_san_peer_certificate.as_deref()),
            uri_san_peer_certificate: text_of(self.uri_san_peer_certificate.as_deref()),
            direct_remote_ip: super::bytes_of(&direct.0[..direct.1]),
            remote_ip: super::bytes_of(&remote.0[..remote.1]),
            destination_ip: super::bytes_of(&local.0[..local.1]),
            source_port: port(self.source),
            destination_port: port(self.destination),
            mtls: self.mtls.map_or(-1, i32::from),
            connection_id: self.connection_id.unwrap_or(0),
            has_connection_id: self.connection_id.is_some(),
        })
    }
}

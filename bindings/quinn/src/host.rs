//! A UDP socket with its connections, each with an application.

use crate::{Adapter, Calls, Dial, Link};
use bytes::BytesMut;
use quinn_proto::{ClientConfig, Connection, ConnectionHandle, DatagramEvent, Endpoint, EndpointConfig, ServerConfig, Transmit};
use std::collections::HashMap;
use std::io;
use std::net::{SocketAddr, UdpSocket};
use std::sync::Arc;
use std::time::{Duration, Instant};
use zevombu::Refused;

/// How long a connection has the processor at once: QUIC's acknowledgements have to go out meanwhile.
const VISIT: Duration = Duration::from_millis(10);
/// How many packets are taken from the socket before connections have their turn.
const PACKETS: usize = 64;

/// What an application does on its connection.
pub trait Application: Sized {
    /// What rewrites the bytes of its peer.
    type Adapter: Adapter;

    /// Makes the calls that go on now; whether one did. It is asked after every few events, and then until nothing goes on.
    fn poll(&mut self, calls: &mut Calls<'_, Self::Adapter>) -> Result<bool, Refused>;

    /// When it is to be asked though nothing happens.
    fn deadline(&self) -> Option<Instant> {
        None
    }

    /// The connection is gone, after so many turns; a turn may have been refused.
    fn gone(&mut self, turns: u64, refused: Option<Refused>) {
        let _ = (turns, refused);
    }
}

struct Member<P: Application> {
    quic: Connection,
    link: Link<P::Adapter>,
    application: P,
    refused: Option<Refused>,
    /// Whether its last visit ended before all was done.
    has_more: bool,
}

impl<P: Application> Member<P> {
    fn new(quic: Connection, link: Link<P::Adapter>, application: P) -> Member<P> {
        Member { quic, link, application, refused: None, has_more: true }
    }

    /// Turns and calls until nothing goes on, or the visit has lasted long enough.
    fn visit(&mut self, now: Instant) {
        if self.quic.poll_timeout().map_or(false, |at| at <= now) {
            self.quic.handle_timeout(now);
        }
        match self.go_on(now) {
            Ok(has_more) => self.has_more = has_more,
            Err(refused) => {
                self.refused = Some(refused);
                self.has_more = false;
                self.link.abandon(&mut self.quic, now);
            }
        }
    }

    fn go_on(&mut self, now: Instant) -> Result<bool, Refused> {
        let begun = Instant::now();
        loop {
            let mut goes_on = self.link.pump(&mut self.quic, now)?;
            if self.link.is_begun() {
                let mut calls = Calls::new(&mut self.link, &mut self.quic, now);
                goes_on |= self.application.poll(&mut calls)?;
            }
            if !goes_on || begun.elapsed() > VISIT {
                return Ok(goes_on);
            }
        }
    }

    fn wakes_at(&mut self, now: Instant) -> Option<Instant> {
        if self.has_more {
            return Some(now);
        }
        [self.quic.poll_timeout(), self.link.deadline(), self.application.deadline()].into_iter().flatten().min()
    }
}

/// A socket and its connections.
pub struct Host<P: Application> {
    socket: UdpSocket,
    endpoint: Endpoint,
    members: HashMap<ConnectionHandle, Member<P>>,
    packet: Vec<u8>,
}

impl<P: Application> Host<P> {
    /// A host that connects, and takes connections where it has the configuration of a server.
    pub fn new(socket: UdpSocket, server: Option<Arc<ServerConfig>>) -> Host<P> {
        Host {
            socket,
            endpoint: Endpoint::new(Arc::new(EndpointConfig::default()), server),
            members: HashMap::new(),
            packet: vec![0; 65536],
        }
    }

    /// Where it is.
    pub fn local_addr(&self) -> io::Result<SocketAddr> {
        self.socket.local_addr()
    }

    /// Whether no connection is left.
    pub fn is_empty(&self) -> bool {
        self.members.is_empty()
    }

    /// Connects a client's link.
    pub fn connect(
        &mut self,
        config: ClientConfig,
        dial: &Dial,
        link: Link<P::Adapter>,
        application: P,
    ) -> Result<(), quinn_proto::ConnectError> {
        let (handle, quic) = self.endpoint.connect(config, dial.address, &dial.name)?;
        self.members.insert(handle, Member::new(quic, link, application));
        Ok(())
    }

    /// One round: what came before goes on, packets go out, and packets come in, for which it waits at most so long. A connection
    /// that comes is given the link and the application that `accept` makes, or is dropped.
    pub fn round<F>(&mut self, longest: Duration, accept: &mut F) -> io::Result<()>
    where
        F: FnMut(SocketAddr) -> Option<(Link<P::Adapter>, P)>,
    {
        let now = Instant::now();
        for member in self.members.values_mut() {
            member.visit(now);
        }
        self.transmit(now);
        self.forget_the_gone();
        let wakes = self.members.values_mut().filter_map(|member| member.wakes_at(now)).min();
        let wait = wakes.map_or(longest, |at| at.saturating_duration_since(Instant::now()).min(longest));
        self.take_packets(wait, accept)
    }

    fn transmit(&mut self, now: Instant) {
        let (socket, endpoint) = (&self.socket, &mut self.endpoint);
        // A packet that the socket doesn't take is lost, as packets may be.
        let send = |packet: Transmit| drop(socket.send_to(&packet.contents, packet.destination));
        for (handle, member) in &mut self.members {
            while let Some(event) = member.quic.poll_endpoint_events() {
                if let Some(event) = endpoint.handle_event(*handle, event) {
                    member.quic.handle_event(event);
                }
            }
            while let Some(packet) = member.quic.poll_transmit(now, 1) {
                send(packet);
            }
        }
        while let Some(packet) = endpoint.poll_transmit() {
            send(packet);
        }
    }

    fn forget_the_gone(&mut self) {
        self.members.retain(|_, member| {
            let is_gone = member.quic.is_drained();
            if is_gone {
                member.application.gone(member.link.turns(), member.refused);
            }
            !is_gone
        });
    }

    fn take_packets<F>(&mut self, wait: Duration, accept: &mut F) -> io::Result<()>
    where
        F: FnMut(SocketAddr) -> Option<(Link<P::Adapter>, P)>,
    {
        // A timeout of zero would be none.
        self.socket.set_read_timeout(Some(wait.max(Duration::from_micros(100))))?;
        for count in 0..PACKETS {
            self.socket.set_nonblocking(count > 0)?;
            let (length, from) = match self.socket.recv_from(&mut self.packet) {
                Ok(packet) => packet,
                // Nothing came, or a peer's socket is gone.
                Err(_) => break,
            };
            let packet = BytesMut::from(&self.packet[..length]);
            self.take_packet(from, packet, accept);
        }
        self.socket.set_nonblocking(false)
    }

    fn take_packet<F>(&mut self, from: SocketAddr, packet: BytesMut, accept: &mut F)
    where
        F: FnMut(SocketAddr) -> Option<(Link<P::Adapter>, P)>,
    {
        match self.endpoint.handle(Instant::now(), from, None, None, packet) {
            Some((handle, DatagramEvent::NewConnection(quic))) => {
                if let Some((link, application)) = accept(from) {
                    self.members.insert(handle, Member::new(quic, link, application));
                }
            }
            Some((handle, DatagramEvent::ConnectionEvent(event))) => {
                if let Some(member) = self.members.get_mut(&handle) {
                    member.quic.handle_event(event);
                    member.has_more = true;
                }
            }
            None => {}
        }
    }
}

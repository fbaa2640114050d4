//! Netlink sockets.

pub mod synchronous {
    //! A socket that waits for what comes.

    use crate::FromBytes;
    use crate::ToBytes;
    use crate::consts::socket::NlFamily;
    use crate::err::SocketError;
    use crate::ffi;
    use crate::link::{Arrived, Link, LinkOption};
    use crate::nl::{NlBufferIter, NlType, Nlmsghdr};
    use crate::utils::{Groups, NetlinkBitArray};
    use std::ffi::c_int;
    use std::io::{self, ErrorKind};
    use std::os::fd::{AsFd, AsRawFd, BorrowedFd, OwnedFd, RawFd};
    use std::sync::{Mutex, MutexGuard, PoisonError};
    use std::time::{Duration, Instant};

    const SOL_SOCKET: c_int = 1;
    const SO_RCVBUF: c_int = 8;
    const ADD_MEMBERSHIP: c_int = 1;
    const DROP_MEMBERSHIP: c_int = 2;
    const EXT_ACK: c_int = 11;
    const GET_STRICT_CHECK: c_int = 12;

    /// The room that a datagram is received into. The kernel fills a dump's up to 32 KiB, and a message of its own may
    /// be longer. Of what is not used there is no memory.
    const ROOM: usize = 1 << 20;

    /// `EAGAIN` and `ECANCELED`, by which a wait ends whose time is over, and one that was stopped.
    const AGAIN: i32 = 11;
    const CANCELED: i32 = 125;

    /// The kernel's port.
    const KERNEL: u32 = 0;

    /// A netlink socket that is bound. It closes when it is dropped.
    ///
    /// It gives what the kernel sent: a datagram of another sender is passed over. Each call takes `&self`, so a socket
    /// can be shared among threads.
    #[derive(Debug)]
    pub struct NlSocketHandle {
        fd: OwnedFd,
        port: u32,
        family: NlFamily,
        /// Readable once the waits are stopped.
        stop: OwnedFd,
        /// Readable once a wait is to end, until one has ended.
        wake: OwnedFd,
        waits: Mutex<Waits>,
        /// What is received lies here before it is copied; at first there is none.
        room: Mutex<Vec<u8>>,
    }

    /// What ends a wait.
    #[derive(Clone, Copy, Debug, Default)]
    struct Waits {
        timeout: Option<Duration>,
        ends_by_signals: bool,
        is_stopped: bool,
    }

    /// A wait that has begun.
    #[derive(Clone, Copy, Debug)]
    pub(crate) struct Wait {
        until: Option<Instant>,
        /// Whether it is for no time, and so for what has arrived.
        is_instant: bool,
    }

    impl Wait {
        /// One that begins now, for this time, or without end.
        pub(crate) fn begin(limit: Option<Duration>) -> Self {
            let is_instant = limit.is_some_and(|it| it.is_zero());
            Wait { until: limit.and_then(|it| Instant::now().checked_add(it)), is_instant }
        }

        /// Refused where its time is over though more still arrives. One for no time takes all that has arrived.
        pub(crate) fn goes_on(&self) -> io::Result<()> {
            if self.is_instant { Ok(()) } else { self.left().map(|_| ()) }
        }

        /// How much of its time is left, none of one without end; refused where it is over.
        pub(crate) fn left(&self) -> io::Result<Option<Duration>> {
            let Some(until) = self.until else { return Ok(None) };
            let left = until.saturating_duration_since(Instant::now());
            if left.is_zero() { Err(io::Error::from_raw_os_error(AGAIN)) } else { Ok(Some(left)) }
        }
    }

    /// Whether an error says that every further wait is over too: they were stopped, or nothing more can come.
    pub(crate) fn is_stop(error: &SocketError) -> bool {
        error.raw_os_error() == Some(CANCELED) || matches!(error, SocketError::Ended)
    }

    /// Whether an error says that a wait is over, and nothing of the socket.
    pub(crate) fn is_end_of_wait(error: &SocketError) -> bool {
        let is_over = |it: &io::Error| matches!(it.kind(), ErrorKind::WouldBlock | ErrorKind::Interrupted);
        is_stop(error) || matches!(error, SocketError::Io(error) if is_over(error))
    }

    impl NlSocketHandle {
        /// A socket of a family, bound to this port, or to one that the kernel chooses, and in these groups.
        ///
        /// Refused as [`SocketError::Io`], as with `EPROTONOSUPPORT` if the kernel has no such family and `EADDRINUSE`
        /// if another socket has the port; then as [`add_mcast_membership`](NlSocketHandle::add_mcast_membership) is.
        pub fn connect(family: NlFamily, port: Option<u32>, groups: Groups) -> Result<Self, SocketError> {
            let fd = ffi::open(family.into(), port.unwrap_or(0))?;
            let port = ffi::port_of(fd.as_raw_fd())?;
            let (stop, wake, waits, room) = (ffi::event()?, ffi::event()?, Mutex::default(), Mutex::default());
            let socket = NlSocketHandle { fd, port, family, stop, wake, waits, room };
            // A kernel that knows no extended acknowledgements answers without.
            let _old_kernel = socket.enable_ext_ack(true);
            socket.add_mcast_membership(groups)?;
            Ok(socket)
        }

        /// The port that the socket is bound to.
        pub fn pid(&self) -> u32 {
            self.port
        }

        /// Joins these groups. Where one is refused, those before it are joined.
        ///
        /// Refused as [`SocketError::Io`], with `EINVAL` if the family has fewer groups, and with `EPERM` where only a
        /// privileged process may join.
        pub fn add_mcast_membership(&self, groups: Groups) -> Result<(), SocketError> {
            self.set_groups(ADD_MEMBERSHIP, &groups)
        }

        /// Leaves these groups. Refused as [`add_mcast_membership`](NlSocketHandle::add_mcast_membership) is; those
        /// before it are left then.
        pub fn drop_mcast_membership(&self, groups: Groups) -> Result<(), SocketError> {
            self.set_groups(DROP_MEMBERSHIP, &groups)
        }

        fn set_groups(&self, option: c_int, groups: &Groups) -> Result<(), SocketError> {
            let set = |group: &u32| ffi::set_netlink_option(self.as_raw_fd(), option, *group as c_int);
            Ok(groups.as_groups().iter().try_for_each(set)?)
        }

        /// The groups that the socket is in. Refused as [`SocketError::Io`], with `ENOPROTOOPT` where the kernel is too
        /// old to list them.
        pub fn list_mcast_membership(&self) -> Result<NetlinkBitArray, SocketError> {
            Ok(NetlinkBitArray::of_words(ffi::memberships(self.as_raw_fd())?))
        }

        /// Whether the kernel is to say in words why it refuses, and where. It is on at first. Refused as
        /// [`SocketError::Io`], with `ENOPROTOOPT` where the kernel is too old for it.
        pub fn enable_ext_ack(&self, enable: bool) -> Result<(), SocketError> {
            self.set_option(LinkOption::ExtAck, enable)
        }

        /// Whether the kernel says so. Refused as [`enable_ext_ack`](NlSocketHandle::enable_ext_ack) is.
        pub fn get_ext_ack_enabled(&self) -> Result<bool, SocketError> {
            self.option(LinkOption::ExtAck)
        }

        /// Whether the kernel is to refuse a dump's request with fields that it does not use. Refused as
        /// [`enable_ext_ack`](NlSocketHandle::enable_ext_ack) is.
        pub fn enable_strict_checking(&self, enable: bool) -> Result<(), SocketError> {
            self.set_option(LinkOption::StrictChecking, enable)
        }

        /// Whether the kernel does so. Refused as [`enable_ext_ack`](NlSocketHandle::enable_ext_ack) is.
        pub fn get_strict_checking_enabled(&self) -> Result<bool, SocketError> {
            self.option(LinkOption::StrictChecking)
        }

        /// Sets the size of the buffer in which the kernel keeps what was not received yet. It doubles the number.
        /// Refused as [`SocketError::Io`] if the system refuses.
        pub fn set_recv_buffer_size(&self, size: usize) -> Result<(), SocketError> {
            let size = c_int::try_from(size).unwrap_or(c_int::MAX);
            Ok(ffi::set_option(self.as_raw_fd(), SOL_SOCKET, SO_RCVBUF, size)?)
        }

        /// How long a call waits, from its beginning on, before it is refused as `WouldBlock`; without end for none. A
        /// wait that has begun keeps its time. This call is never refused.
        pub fn set_recv_timeout(&self, timeout: Option<Duration>) -> Result<(), SocketError> {
            self.waits().timeout = timeout;
            Ok(())
        }

        /// Whether a signal ends a wait, as `Interrupted`. At first it goes on. Of several threads that wait at one
        /// router, it ends the wait of the one that watches the socket, if that one gets the signal.
        pub fn end_waits_by_signals(&self, ends: bool) {
            self.waits().ends_by_signals = ends;
        }

        /// Ends every wait that is under way, and each later one, with the system's `ECANCELED`. What is there can be
        /// received all the same.
        pub fn stop(&self) {
            self.waits().is_stopped = true;
            // The counter holds more than can be written here, and is read by nobody.
            let _written = ffi::signal(self.stop.as_raw_fd());
        }

        fn waits(&self) -> MutexGuard<'_, Waits> {
            self.waits.lock().unwrap_or_else(PoisonError::into_inner)
        }

        /// Refused where the waits are stopped.
        fn want_unstopped(&self) -> io::Result<()> {
            if self.waits().is_stopped { Err(io::Error::from_raw_os_error(CANCELED)) } else { Ok(()) }
        }

        /// Waits until there may be something to be received, or the wait is to end; refused where it is over.
        fn wait_until(&self, wait: &Wait) -> io::Result<()> {
            let ends_by_signals = self.waits().ends_by_signals;
            loop {
                self.want_unstopped()?;
                let left = wait.left()?.map_or(-1, |it| c_int::try_from(it.as_millis() + 1).unwrap_or(c_int::MAX));
                match ffi::wait([self.as_raw_fd(), self.stop.as_raw_fd(), self.wake.as_raw_fd()], left) {
                    Ok(true) => {
                        ffi::reset(self.wake.as_raw_fd());
                        return self.want_unstopped();
                    }
                    Err(error) if error.kind() != ErrorKind::Interrupted || ends_by_signals => return Err(error),
                    _ => {}
                }
            }
        }

        /// Sends a message to the kernel, as it is. Refused as [`SocketError::Ser`] if it can't be written, and as
        /// [`send_bytes`](NlSocketHandle::send_bytes) is.
        pub fn send<T: NlType, P: ToBytes>(&self, message: &Nlmsghdr<T, P>) -> Result<(), SocketError> {
            self.send_bytes(&message.to_message()?)
        }

        /// Sends a datagram to the kernel. Refused as [`SocketError::Io`], with `EMSGSIZE` if it is longer than the
        /// socket's buffer for sending.
        pub fn send_bytes(&self, datagram: &[u8]) -> Result<(), SocketError> {
            self.send_bytes_to(datagram, KERNEL)
        }

        /// Sends a datagram to the socket that is bound to this port, in the same network namespace. Refused as
        /// [`send_bytes`](NlSocketHandle::send_bytes) is, with `ECONNREFUSED` if there is no such socket, and with
        /// `EPERM` where only a privileged process may send to others than the kernel.
        pub fn send_bytes_to(&self, datagram: &[u8], port: u32) -> Result<(), SocketError> {
            loop {
                match ffi::send(self.as_raw_fd(), datagram, port) {
                    Err(error) if error.kind() == ErrorKind::Interrupted => {}
                    sent => return Ok(sent.map(|_| ())?),
                }
            }
        }

        /// The messages of the next datagram, and the groups that it came to. Refused as
        /// [`recv_bytes`](NlSocketHandle::recv_bytes) is.
        pub fn recv<T: NlType, P: FromBytes>(&self) -> Result<(NlBufferIter<T, P>, Groups), SocketError> {
            let mut room = Vec::new();
            let groups = self.recv_bytes(&mut room)?;
            Ok((NlBufferIter::new(room), groups))
        }

        /// All messages of the next datagram, and the groups that it came to. Refused as
        /// [`recv_bytes`](NlSocketHandle::recv_bytes) is, and as [`SocketError::De`] at the first message that can't be
        /// read; then the datagram is lost.
        pub fn recv_all<T, P>(&self) -> Result<(Vec<Nlmsghdr<T, P>>, Groups), SocketError>
        where
            T: NlType,
            P: FromBytes,
        {
            let (messages, groups) = self.recv()?;
            Ok((messages.collect::<Result<_, _>>()?, groups))
        }

        /// The next datagram, whole, in place of what `room` held; and the groups that it came to. Refused as
        /// `Truncated` where it has more than a mebibyte; then it is lost, and the next one may be as long.
        ///
        /// Refused also as [`SocketError::Io`]: where the wait has ended, and with the system's number, as `ENOBUFS`
        /// where the socket's buffer ran over and datagrams are lost.
        pub fn recv_bytes(&self, room: &mut Vec<u8>) -> Result<Groups, SocketError> {
            let wait = Wait::begin(self.limit());
            loop {
                let mut kept = self.room.lock().unwrap_or_else(PoisonError::into_inner);
                if let Some((length, group)) = self.received_into(&mut kept)? {
                    room.clear();
                    room.extend_from_slice(&kept[..length]);
                    return Ok(Groups::new_groups(&[group]));
                }
                drop(kept);
                self.wait_until(&wait)?;
            }
        }

        /// The next datagram, into these bytes, as its length, and the groups that it came to. Refused as `Truncated`
        /// where it is longer; then it is lost. Refused as [`SocketError::Io`] as
        /// [`recv_bytes`](NlSocketHandle::recv_bytes) is.
        pub fn recv_into(&self, room: &mut [u8]) -> Result<(usize, Groups), SocketError> {
            let wait = Wait::begin(self.limit());
            loop {
                if let Some((length, group)) = self.received(room)? {
                    return Ok((length, Groups::new_groups(&[group])));
                }
                self.wait_until(&wait)?;
            }
        }

        /// The datagram that is there, as its length and its group, in a room that is large enough but for the first
        /// that is longer than any before, and has more than `ROOM` bytes.
        fn received_into(&self, room: &mut Vec<u8>) -> Result<Option<(usize, u32)>, SocketError> {
            if room.len() < ROOM {
                *room = vec![0; ROOM];
            }
            let received = self.received(room);
            if let Err(SocketError::Truncated { length, .. }) = received {
                *room = vec![0; length];
            }
            received
        }

        /// The datagram of the kernel that is there, as its length and its group; none where nothing is there.
        fn received(&self, room: &mut [u8]) -> Result<Option<(usize, u32)>, SocketError> {
            loop {
                match ffi::receive(self.as_raw_fd(), room) {
                    Ok(it) if it.port != KERNEL => {}
                    Ok(it) if it.length > room.len() => {
                        return Err(SocketError::Truncated { length: it.length, room: room.len() });
                    }
                    Ok(it) => return Ok(Some((it.length, it.group))),
                    Err(error) if error.kind() == ErrorKind::Interrupted => {}
                    Err(error) if error.kind() == ErrorKind::WouldBlock => return Ok(None),
                    Err(error) => return Err(error.into()),
                }
            }
        }
    }

    impl Link for NlSocketHandle {
        fn port(&self) -> u32 {
            self.port
        }

        fn send(&self, datagram: &[u8]) -> Result<(), SocketError> {
            self.send_bytes(datagram)
        }

        fn receive(&self, room: &mut Vec<u8>) -> Result<Option<Arrived>, SocketError> {
            Ok(self.received_into(room)?.map(|(length, group)| Arrived { length, group }))
        }

        fn wait(&self, limit: Option<Duration>) -> Result<(), SocketError> {
            Ok(self.wait_until(&Wait::begin(limit))?)
        }

        fn wake(&self) {
            // A counter that holds no more is readable already.
            let _written = ffi::signal(self.wake.as_raw_fd());
        }

        fn stop(&self) {
            self.stop();
        }

        fn limit(&self) -> Option<Duration> {
            self.waits().timeout
        }

        fn family(&self) -> NlFamily {
            self.family
        }

        fn set_membership(&self, group: u32, is_member: bool) -> Result<(), SocketError> {
            self.set_groups(if is_member { ADD_MEMBERSHIP } else { DROP_MEMBERSHIP }, &Groups::new_groups(&[group]))
        }

        fn memberships(&self) -> Result<NetlinkBitArray, SocketError> {
            self.list_mcast_membership()
        }

        fn set_option(&self, option: LinkOption, enable: bool) -> Result<(), SocketError> {
            Ok(ffi::set_netlink_option(self.as_raw_fd(), number_of(option), enable.into())?)
        }

        fn option(&self, option: LinkOption) -> Result<bool, SocketError> {
            Ok(ffi::netlink_option(self.as_raw_fd(), number_of(option))? != 0)
        }
    }

    fn number_of(option: LinkOption) -> c_int {
        match option {
            LinkOption::ExtAck => EXT_ACK,
            LinkOption::StrictChecking => GET_STRICT_CHECK,
        }
    }

    impl AsRawFd for NlSocketHandle {
        fn as_raw_fd(&self) -> RawFd {
            self.fd.as_raw_fd()
        }
    }

    impl AsFd for NlSocketHandle {
        fn as_fd(&self) -> BorrowedFd<'_> {
            self.fd.as_fd()
        }
    }

    impl From<NlSocketHandle> for OwnedFd {
        fn from(socket: NlSocketHandle) -> OwnedFd {
            socket.fd
        }
    }
}

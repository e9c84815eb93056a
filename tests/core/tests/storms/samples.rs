//! The texts that mutations begin with, and the pieces that they insert.

/// A session with each call of both channels, and with commands.
const WHOLE_SESSION: &[u8] =
    b"broadcast 2\nwatch 5\nactors 2\n0 0 subscribe 0 as slow\n0 0 send 0 1\n0 0 send 0 2\n0 0 send 0 3\n0 0 try-recv slow\n0 0 recv slow\n0 0 clone-sender 0 as more\n0 0 downgrade 0 as weak\n0 0 upgrade weak as up\n0 0 clone-weak weak\n0 0 resubscribe 1\n0 0 sender-len 0\n0 0 receiver-len 1\n0 0 receiver-count 0\n0 0 drop more\n1 1 send 0 6\n1 1 send-replace 0 7\n1 1 modify 0 8 no\n1 1 modify 0 9 yes\n1 1 subscribe 0 as late\n1 1 clone-sender 0 as twin\n1 1 clone-receiver 1 as other\n1 1 changed 1\n1 1 update other\n1 1 has-changed 1\n1 1 mark-changed 1\n1 1 mark-unchanged 1\n1 1 borrow 1\n1 1 is-closed 0\n1 1 receiver-count 0\n1 1 drop late\n1 1 drop other\n1 1 drop 1\n1 1 closed 0\n---\nlist\nstate\nstate json\nstart\nforward 3\nstep\nrforward reply value\nrback actor 0\nrforward lagging 0 1\nrforward closed 0\nback 2\ngoto 4\nend\nquit\n";

/// A short session, over a channel that closes.
const SHORT_SESSION: &[u8] =
    b"broadcast 1\n0 0 send 0 1\n0 0 send 0 2\n0 0 drop 0\n0 0 try-recv 1\n0 0 recv 1\n0 0 recv 1\n---\nrback lagging 0 1\nstate\n";

/// A session that waits.
const WAITING_SESSION: &[u8] = b"watch 5\n0 0 changed 1\n---\nstate\n";

/// A journal of one channel, in version 1.
const OLD_JOURNAL: &[u8] =
    b"ttd-journal 1\nbroadcast 4\nsteps\n1 0 0 send 0 7 = sent 1\n2 0 0 try-recv 1 = value 7\n3 0 0 drop 0 = dropped\nend\n";

/// A journal of two channels and two actors.
const JOURNAL: &[u8] =
    b"ttd-journal 2\nbroadcast 2\nwatch 5\nsteps\n1 0 0 subscribe 0 = new 2\n1 1 1 send 0 6 = stored\n2 0 0 downgrade 0 = new 3\n3 0 0 send 0 1 = sent 2\n4 0 0 try-recv 2 = value 1\n5 1 1 update 1 = value 6\n6 1 1 update 1 = value 6\n7 1 1 has-changed 1 = flag no\n8 0 0 try-recv 2 = empty\n9 0 0 receiver-len 1 = count 1\nend\n";

/// Sessions that are mutated.
pub const SESSIONS: [&[u8]; 3] = [WHOLE_SESSION, SHORT_SESSION, WAITING_SESSION];

/// Journals that are mutated.
pub const JOURNALS: [&[u8]; 2] = [OLD_JOURNAL, JOURNAL];

/// The pieces that are inserted.
pub const PIECES: [&[u8]; 32] = [
    b"",
    b"\n",
    b" ",
    b"  ",
    b"0",
    b"1",
    b"2",
    b"9",
    b"00",
    b"64",
    b"65536",
    b"65537",
    b"4294967295",
    b"4294967296",
    b"4611686018427387904",
    b"18446744073709551615",
    b"18446744073709551616",
    b"\r\n",
    b"\0",
    b"\xff",
    b"-1",
    b"# comment\n",
    b"---\n",
    b"end\n",
    b"steps\n",
    b"broadcast 2\n",
    b"watch 5\n",
    b"actors 2\n",
    b"10 0 0 send 0 4 = sent 2\n",
    b"0 0 recv 1\n",
    b"0 0 send 0 4\n",
    b" as slow",
];

//! The table of calls: what each is to a journal, to tokio, to an account and to the core.
//!
//! A row has the variant of `Operation`, the journal's word, tokio's name of the method, and what
//! an account says was done by it. Then come the kind of handle that it creates, if it does, and
//! the sets that it is in (`CallSet`), and last the calls of the core that have this word: each is
//! a method of a recording, and a variant of `BCall` or `WCall`. A call that waits, and for which
//! a journal has the word of another one, names that one instead.
//!
//! rustc names the variant of `BCall` or `WCall` that has no row, and what a row lacks.

/// Passes the table to a macro.
#[macro_export]
macro_rules! with_calls {
    ($then:ident) => {
        $then! {
            Send "send" "send" "sent" [SENDS]
                broadcast_send(sender: u32, value: u64) = B Send (sender, value)
                watch_send(sender: u32, value: u64) = W Send (sender, value);
            SendReplace "send-replace" "send_replace" "sent" [SENDS]
                watch_send_replace(sender: u32, value: u64) = W SendReplace (sender, value);
            Modify "modify" "send_modify" "sent" [SENDS]
                watch_modify(sender: u32, told: bool, value: u64) = W Modify { told, handle: sender, value };
            Subscribe "subscribe" "subscribe" "subscribed" makes Receiver []
                broadcast_subscribe(sender: u32) = B Subscribe (sender)
                watch_subscribe(sender: u32) = W Subscribe (sender);
            CloneSender "clone-sender" "clone" "cloned" makes Sender []
                broadcast_clone_sender(sender: u32) = B CloneSender (sender)
                watch_clone_sender(sender: u32) = W CloneSender (sender);
            CloneReceiver "clone-receiver" "clone" "cloned" makes Receiver []
                watch_clone_receiver(receiver: u32) = W CloneReceiver (receiver);
            Resubscribe "resubscribe" "resubscribe" "resubscribed" makes Receiver []
                broadcast_resubscribe(receiver: u32) = B Resubscribe (receiver);
            Downgrade "downgrade" "downgrade" "downgraded" makes WeakSender []
                broadcast_downgrade(sender: u32) = B Downgrade (sender);
            Upgrade "upgrade" "upgrade" "upgraded" makes Sender []
                broadcast_upgrade(weak: u32) = B Upgrade (weak);
            CloneWeak "clone-weak" "clone" "cloned" makes WeakSender []
                broadcast_clone_weak(weak: u32) = B CloneWeak (weak);
            TryRecv "try-recv" "try_recv" "received" [RECEIVES TAKES]
                broadcast_try_recv(receiver: u32) = B TryRecv (receiver);
            Recv "recv" "recv" "received" [RECEIVES TAKES MAY_WAIT]
                broadcast_recv(receiver: u32) = B Recv (receiver);
            Borrow "borrow" "borrow" "looked" [RECEIVES ASKS]
                watch_borrow(handle: u32) = W Borrow (handle);
            Update "update" "borrow_and_update" "looked" [RECEIVES MARKS]
                watch_update(receiver: u32) = W Update (receiver);
            HasChanged "has-changed" "has_changed" "asked" [RECEIVES AWAITS ASKS]
                watch_has_changed(receiver: u32) = W HasChanged (receiver);
            Changed "changed" "changed" "received" [RECEIVES MARKS AWAITS MAY_WAIT]
                watch_changed(receiver: u32) = W Changed (receiver);
            MarkChanged "mark-changed" "mark_changed" "asked" []
                watch_mark_changed(receiver: u32) = W MarkChanged (receiver);
            MarkUnchanged "mark-unchanged" "mark_unchanged" "asked" [MARKS]
                watch_mark_unchanged(receiver: u32) = W MarkUnchanged (receiver);
            Drop "drop" "drop" "dropped" []
                broadcast_drop(handle: u32) = B DropHandle (handle)
                watch_drop(handle: u32) = W DropHandle (handle);
            SenderLen "sender-len" "len" "asked" [ASKS]
                broadcast_sender_len(sender: u32) = B SenderLen (sender);
            ReceiverLen "receiver-len" "len" "asked" [ASKS]
                broadcast_receiver_len(receiver: u32) = B ReceiverLen (receiver);
            ReceiverCount "receiver-count" "receiver_count" "asked" [ASKS]
                broadcast_receiver_count(sender: u32) = B ReceiverCount (sender)
                watch_receiver_count(sender: u32) = W ReceiverCount (sender);
            IsClosed "is-closed" "is_closed" "asked" [ASKS]
                watch_is_closed(sender: u32) = W IsClosed (sender);
            Closed "closed" "closed" "asked" [MAY_WAIT]
                watch_closed(sender: u32) = W AwaitClosed (sender);
            // The look at a value by `wait_for`.
            WaitFor "update" "wait_for" "looked" [RECEIVES MARKS AWAITS MAY_WAIT] => Update;
            // The `closed` of a broadcast.
            NoReceiver "receiver-count" "closed" "asked" [MAY_WAIT] => ReceiverCount;
        }
    };
}
pub use with_calls;

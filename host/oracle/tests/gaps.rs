//! What the given text lacks and document 01 decides, and what document 01 says
//! of the functions that the text has after all.

use std::task::Poll;

use oracle::*;

#[test]
fn chunk_is_one_less_than_the_fifo() {
    assert_eq!(chunk_size(31), 31);
    assert_eq!(chunk_size(1000), 31);
    assert!(setup_write(0, &[0; 32], false, false).is_ok());
}

#[test]
fn address_above_127_is_invalid() {
    let invalid = Error::AddressInvalid(I2cAddress::SevenBit(128));
    assert_eq!(write_operation(128, &[1], true, true), Err(invalid));
    assert_eq!(write_operation(128, &[], false, false), Err(invalid));
    assert_eq!(read_operation(128, 0, true, true, false), Err(invalid));
    let empty = transaction(128, &[], &Setup::default(), |_, _| Turn::default());
    assert_eq!(empty.result, Some(Err(invalid)));
    assert!(write_operation(127, &[1], true, true).is_ok());
}

#[test]
fn address_counts_a_byte_even_where_none_is_sent() {
    let per_byte = Deadline::PerByte(10);
    for start in [true, false] {
        let write = start_write_operation(1, &[0; 4], start, false, per_byte, 100);
        assert_eq!(write.unwrap().1, Some(150));
        let read = start_read_operation(1, 4, start, false, false, per_byte, 100);
        assert_eq!(read.unwrap().1, Some(150));
    }
}

#[test]
fn fifo_bytes_keep_their_order_and_start_anew_with_each_list() {
    let bytes: Vec<u8> = (0..40).collect();
    let write = [Op::Write(bytes.clone())];
    let trace = transaction(3, &write, &Setup::default(), |_, list| {
        Turn::completed(list, 0)
    });
    assert_eq!(trace.lists[0].list.fifo, [&[6], &bytes[..31]].concat());
    assert_eq!(trace.lists[1].list.fifo, bytes[31..]);
}

#[test]
fn received_bytes_are_read_in_order() {
    assert_eq!(read_all_from_fifo(3, &[7, 8, 9]), Ok(vec![7, 8, 9]));
    assert_eq!(
        read_all_from_fifo(3, &[7, 8]),
        Err(Error::ExecutionIncomplete)
    );
}

#[test]
fn command_words_have_document_01s_layout() {
    let write = |ack_exp, ack_check_en, length| Command::Write {
        ack_exp,
        ack_check_en,
        length,
    };
    let read = |ack_value, length| Command::Read { ack_value, length };
    assert_eq!(word(Command::Start), 0x3000);
    assert_eq!(word(Command::Stop), 0x1000);
    assert_eq!(word(Command::End), 0x2000);
    assert_eq!(word(write(Ack::Ack, false, 0)), 0x0800);
    assert_eq!(word(write(Ack::Ack, true, 255)), 0x09ff);
    assert_eq!(word(write(Ack::Nack, false, 1)), 0x0a01);
    assert_eq!(word(read(Ack::Ack, 32)), 0x1820);
    assert_eq!(word(read(Ack::Nack, 1)), 0x1c01);
}

/// Document 01, "Pieces (ours)".
#[test]
fn text_has_calculate_chunk_size_as_document_01_has_it() {
    for left in 0..5000 {
        let ours = match left {
            0..=31 => left,
            32 | 33 => 29,
            _ => 31,
        };
        assert_eq!(chunk_size(left), ours);
    }
}

#[test]
fn text_has_is_done_as_document_01_has_it() {
    for bits in 0..=255u8 {
        let clean = bits & 0xe0 | 0x20;
        let snapshot = Snapshot::from_bits(clean, [0; 8], 0);
        let done = snapshot.trans_complete || snapshot.end_detect;
        assert_eq!(poll_completion(&snapshot, None).is_ready(), done);
    }
}

#[test]
fn text_has_nack_reason_as_document_01_has_it() {
    let nack = Snapshot::from_bits(1, [0; 8], 0);
    let unknown = Error::AcknowledgeCheckFailed(AcknowledgeCheckFailedReason::Unknown);
    assert_eq!(poll_completion(&nack, None), Poll::Ready(Err(unknown)));
}

#[test]
fn text_has_fresh_clear_as_document_01_has_it_but_for_wait_order_and_reset() {
    let (clear, effects) = Clear::fresh(true, true, 7);
    assert_eq!(clear.state, ClearState::SendClock(9, false));
    assert!(effects.contains(&Effect::Scl(false)) && effects.contains(&Effect::Sda(true)));
    assert_eq!(effects.len(), 2);

    let (bare, nothing) = Clear::fresh(false, false, 7);
    assert_eq!((bare.state, bare.wait), (ClearState::Idle, 7));
    assert_eq!(nothing, []);
}

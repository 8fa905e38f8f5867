//go:build linux && amd64

package fbcheck

// #include "calls.h"
import "C"

import (
	"encoding/binary"
	"fmt"
	"io"
)

// Messages goes through the messages of a stream, each with its size in front (4 bytes, little-endian).
//
//	messages := schema.Messages(os.Stdin)
//	for messages.Next() {
//		if verdict := messages.Verdict(); !verdict.OK {
//			log.Print(verdict)
//		}
//	}
//	return messages.Err()
type Messages struct {
	schema   *Schema
	reader   io.Reader
	maxBytes int
	framer   C.fbcheck_framer
	room     []byte // as much as the messages up to now have needed
	piece    []byte
	rest     []byte // what of the piece isn't fed yet
	ended    error  // what the reader said with that
	message  []byte // nil where there is none
	checked  bool
	verdict  Verdict
	err      error
	over     bool // err isn't one of the reader, after which it may go on
	count    uint64
	begin    uint64
	next     uint64 // where the next message begins
}

// idle is how often a reader may return nothing and no error, one time after another.
const idle = 100

// Messages goes through the messages of a stream, each of at most 64 MiB (see MaxBytes). The schema's options must be
// Prefixed, since each message has its size in front.
func (s *Schema) Messages(reader io.Reader) *Messages {
	if s.checker.options.prefixed == 0 {
		panic("fbcheck: messages of a stream begin with their size, which Prefixed says")
	}
	return &Messages{schema: s, reader: reader, maxBytes: 64 << 20, piece: make([]byte, 1<<16)}
}

// MaxBytes sets the most bytes of a message, its size included, from 8 to 2^31 - 1. Call it before Next. It also bounds
// the memory for messages, which grows to twice what the longest message declares, and is kept.
func (m *Messages) MaxBytes(bytes int) *Messages {
	if bytes < 8 || bytes > 1<<31-1 {
		panic(fmt.Sprintf("fbcheck: MaxBytes(%d) isn't from 8 to 2^31 - 1", bytes))
	}
	if m.room != nil {
		panic("fbcheck: MaxBytes was called after Next")
	}
	m.maxBytes = bytes
	return m
}

// Next goes on to the next message. It returns false at the stream's end, and if the stream can't go on: see Err. After
// a reader's error, such as a deadline, it may be called again: nothing is lost.
func (m *Messages) Next() bool {
	m.checked, m.message = false, nil
	if m.over {
		return false
	}
	m.err = nil
	if m.room == nil {
		m.makeRoom(256)
	}
	C.fbcheck_framer_next(&m.framer, first(m.room), C.size_t(len(m.room)))
	for !m.feed() {
		if m.err == nil {
			m.fill()
		}
		if m.err != nil {
			return false
		}
	}
	m.message = m.room[:m.framer.held:m.framer.held]
	m.count, m.begin, m.next = m.count+1, m.next, m.next+uint64(len(m.message))
	return true
}

// Count returns how many messages came up to now, which is the number of the last one.
func (m *Messages) Count() uint64 {
	return m.count
}

// Begin returns where that one begins in the stream, in bytes.
func (m *Messages) Begin() uint64 {
	return m.begin
}

// makeRoom begins a message in room for so many bytes, or for what is allowed.
func (m *Messages) makeRoom(size int) {
	if size > m.maxBytes {
		size = m.maxBytes
	}
	m.room, m.framer = make([]byte, size), C.fbcheck_framer{}
}

// feed feeds what is left of the piece, and tells whether a whole message is held.
func (m *Messages) feed() bool {
	held := m.framer.held
	fed := C.feed_piece(&m.framer, first(m.room), C.size_t(len(m.room)), first(m.rest), C.size_t(len(m.rest)))
	m.rest = m.rest[fed.used:]
	switch fed.status {
	case C.FBCHECK_OK:
		return true
	case C.FBCHECK_MORE:
	case C.FBCHECK_OVERSIZE:
		declared := uint32(m.framer.declared)
		if int(declared) <= m.maxBytes-4 {
			// Of this message its size alone has come, with the piece's first bytes: both are fed once more.
			m.rest = append(binary.LittleEndian.AppendUint32(nil, declared), m.rest[4-held:]...)
			m.makeRoom(2 * (int(declared) + 4))
			return m.feed()
		}
		m.fail(&StreamError{Status: Oversize, Size: uint64(declared) + 4})
	default:
		m.fail(&StreamError{Status: Failed})
	}
	return false
}

// fail ends the stream by an error in the message that was due.
func (m *Messages) fail(err *StreamError) {
	err.Number, err.Begin, err.MaxBytes = m.count+1, m.next, m.maxBytes
	m.err, m.over = err, true
}

// sizeOfMessage is how many bytes the message has, or 0 where its size hasn't come.
func (m *Messages) sizeOfMessage() uint64 {
	if m.framer.held < 4 {
		return 0
	}
	return uint64(binary.LittleEndian.Uint32(m.room)) + 4
}

// fill reads the next piece, unless the reader has an error, or the stream has ended.
func (m *Messages) fill() {
	for tries := 0; m.ended == nil; tries++ {
		if tries == idle {
			m.ended = io.ErrNoProgress
			break
		}
		var length int
		length, m.ended = m.reader.Read(m.piece)
		if m.rest = m.piece[:length]; length > 0 {
			return
		}
	}
	if m.ended != io.EOF {
		m.err, m.ended = m.ended, nil
	} else if C.fbcheck_framer_finish(&m.framer, first(m.room), C.size_t(len(m.room))) != C.FBCHECK_OK {
		m.fail(&StreamError{Status: Truncated, Held: uint64(m.framer.held), Size: m.sizeOfMessage()})
	} else {
		m.err, m.over = io.EOF, true
	}
}

// Message returns the message with its size in front, valid until the next call of Next, or nil if that returned false.
// It isn't checked yet: Verdict checks it, or the schema's Check and Read; other goroutines can check a copy.
func (m *Messages) Message() []byte {
	return m.message
}

// Verdict returns the verdict on the message, which is checked at the first call.
func (m *Messages) Verdict() Verdict {
	if !m.checked {
		m.verdict, m.checked = m.schema.Check(m.message), true
	}
	return m.verdict
}

// Err returns why Next returned false: nil at the stream's end, or else a *StreamError, or what the reader returned
// (io.ErrNoProgress, if that was nothing 100 times).
func (m *Messages) Err() error {
	if m.err == io.EOF {
		return nil
	}
	return m.err
}

// A StreamError says why a stream can't go on: a message is too long (Oversize), or the stream ends inside one
// (Truncated). Where a number of bytes includes a message's size, that counts as 4.
type StreamError struct {
	Status   Status
	Number   uint64 // the message's, from 1
	Begin    uint64 // where it begins in the stream, in bytes
	Size     uint64 // how many bytes it has, its size included; 0 if its size hasn't come
	Held     uint64 // Truncated: how many of them came
	MaxBytes int    // how many were allowed
}

// Error returns the program's text, and what it doesn't say.
func (e *StreamError) Error() string {
	message := fmt.Sprintf("; message %d at %d", e.Number, e.Begin)
	switch {
	case e.Status == Oversize:
		return fmt.Sprintf("fbcheck: stream: S1 Oversize declared=%d%s is longer than MaxBytes, %d", e.Size-4, message,
			e.MaxBytes)
	case e.Status != Truncated:
		return "fbcheck: " + texts[Failed]
	case e.Size > 0:
		return fmt.Sprintf("fbcheck: stream: S2 Truncated held=%d%s has %d bytes", e.Held, message, e.Size)
	}
	return fmt.Sprintf("fbcheck: stream: S2 Truncated held=%d%s ends inside its size", e.Held, message)
}

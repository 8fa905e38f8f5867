//go:build linux && amd64

package fbcheck

// #include <fbcheck.h>
import "C"

import (
	"encoding/binary"
	"fmt"
	"math"
	"strconv"
	"unsafe"
)

// String returns the code and name, such as "V10 NoTerminator".
func (r Reason) String() string {
	if r == TooLong {
		return "TooLong"
	}
	return faultName(C.FBCHECK_BAD, C.uint32_t(r))
}

// faultName is the code and name of a fault, by what a verdict tells of it.
func faultName(status, reason C.uint32_t) string {
	var text [32]byte
	length := C.fbcheck_fault_name(status, reason, (*C.char)(unsafe.Pointer(&text)), C.size_t(len(text)))
	return string(text[:length])
}

// A Verdict is what a check reports about a message: its counts, or its first fault.
type Verdict struct {
	OK       bool
	Tables   uint32 // of an ok message: the tables visited
	Depth    uint32 // of an ok message: the greatest depth of nested tables; the root alone is 1
	Reads    uint64 // the reads counted; of a bad message those up to its fault
	Reason   Reason // of a bad message: why it's refused
	Position uint64 // of a bad message: where its fault is, in bytes from its beginning; perhaps past its end
	Object   uint32 // of a bad message: the number of the object under check, which ObjectName names
	Field    int64  // of a bad message: the number of the field under check, or -1
	Place    string // of a bad message: the place in words, as "in items[2].name [game.Item.name]", at most 1,024 bytes
}

// String returns what the program's line has.
func (v Verdict) String() string {
	if v.OK {
		return fmt.Sprintf("ok tables=%d depth=%d reads=%d", v.Tables, v.Depth, v.Reads)
	}
	place := v.Place
	if place != "" {
		place = " " + place
	}
	return fmt.Sprintf("bad %v at=%d object=%d field=%s reads=%d%s", v.Reason, v.Position, v.Object, dash(v.Field),
		v.Reads, place)
}

// dash is the text of a number, or "-" for -1.
func dash(number int64) string {
	if number < 0 {
		return "-"
	}
	return strconv.FormatInt(number, 10)
}

// part is the number of a field that is told, or -1.
func part(field C.uint32_t) int64 {
	if field == C.FBCHECK_NONE {
		return -1
	}
	return int64(field)
}

func refused(verdict C.fbcheck_verdict, place string) Verdict {
	return Verdict{
		Reads: uint64(verdict.reads), Reason: Reason(verdict.reason), Position: uint64(verdict.at),
		Object: uint32(verdict.object), Field: part(verdict.field), Place: place,
	}
}

// A BadBuffer is the error for a bad message.
type BadBuffer struct {
	Verdict Verdict
}

// Error returns what the program's line has.
func (b *BadBuffer) Error() string {
	return "fbcheck: " + b.Verdict.String()
}

// A Status says why a call failed.
type Status uint32

// Why a call failed.
const (
	UnknownOptions Status = C.FBCHECK_UNKNOWN_OPTIONS // PlainBytes was asked for without Strict
	OutOfRange     Status = C.FBCHECK_OUT_OF_RANGE    // MaxDepth is above 4096
	NoIdent        Status = C.FBCHECK_NO_IDENT        // Ident isn't 4 bytes, or came with OwnIdent; or the schema's own isn't
	NoRoot         Status = C.FBCHECK_NO_ROOT         // the schema has no root table, or none of this name
	LongFile       Status = C.FBCHECK_TOO_LONG        // the schema file has 2^31 bytes or more
	NotWellFormed  Status = C.FBCHECK_NOT_WELL_FORMED // the file isn't a binary schema, or is damaged
	BadSchema      Status = C.FBCHECK_BAD_SCHEMA      // its contents aren't a legal schema
	RootNotListed  Status = C.FBCHECK_ROOT_NOT_LISTED // its root table isn't listed in it
	NoMemory       Status = C.FBCHECK_NO_MEMORY       // memory was refused
	Oversize       Status = C.FBCHECK_OVERSIZE        // a message of the stream is longer than MaxBytes
	Truncated      Status = C.FBCHECK_TRUNCATED       // the stream ends inside a message
	Failed         Status = C.FBCHECK_FAILED          // the stream has failed before
	BadPath        Status = C.FBCHECK_BAD_PATH        // the text isn't a path of the schema
	TooManySteps   Status = C.FBCHECK_NO_ROOM         // the path has more than 31 steps
	Misfit         Status = C.FBCHECK_MISFIT          // a path isn't one of this schema from this root table
	TooMuchShared  Status = C.FBCHECK_TOO_MUCH_SHARED // the file has more rows, or longer names, than its length allows
	NotPlanned     Status = C.FBCHECK_NOT_PLANNED     // the schema wasn't loaded with what is demanded, such as Strict
	UnmarkedBytes  Status = C.FBCHECK_UNMARKED_BYTES  // Strict can't tell what a field of type [ubyte] holds
	NoSuchTable    Status = C.FBCHECK_NO_SUCH_TABLE   // the file marks a nested buffer of a table that it lacks
	Changed        Status = C.FBCHECK_CHANGED         // ReadAgain: the bytes aren't those of an ok message
)

var texts = map[Status]string{
	UnknownOptions: "PlainBytes needs Strict",
	OutOfRange:     fmt.Sprintf("MaxDepth is above %d", C.FBCHECK_DEEPEST),
	NoIdent:        "the schema's identifier isn't four bytes",
	NoRoot:         "no root table",
	LongFile:       "schema: L5 TooLong",
	RootNotListed:  "schema: L3 RootNotListed",
	NoMemory:       "out of memory",
	Failed:         "stream: S4 Failed",
	TooManySteps:   fmt.Sprintf("the path has more than %d steps", C.FBCHECK_STEPS),
	Misfit:         "a path is none of this schema from this root",
	TooMuchShared:  "schema: L6 TooMuchShared",
	Changed:        "the bytes aren't those of an ok message",
	NotPlanned:     "the schema was loaded with other demands: ask for these when you load it",
	UnmarkedBytes: "strict can't tell which bytes are nested buffers or flexbuffers: %s; flatc --bfbs-builtins writes it" +
		" to the .bfbs, PlainBytes takes such fields as bytes",
	NoSuchTable: "strict can't find the table of a nested buffer: %s; PlainBytes takes such fields as bytes",
}

// guess is what a file may be that isn't well-formed: its identifier is read before all else.
func guess(verdict C.fbcheck_verdict) string {
	if verdict.reason == C.FBCHECK_WRONG_IDENTIFIER || verdict.reads == 0 {
		return "this is no binary schema, which flatc --binary --schema makes"
	}
	return "this binary schema is damaged or incomplete"
}

// An Error says why a call failed.
type Error struct {
	Status Status
	text   string
}

// Error returns the program's text, with the root or path that was asked for.
func (e *Error) Error() string {
	return "fbcheck: " + e.text
}

// errorOf is the error that a call told, which was asked for something, or for nothing that has a name.
func errorOf(verdict C.fbcheck_verdict, asked string) *Error {
	status, name := Status(verdict.status), faultName(verdict.status, verdict.reason)
	text := texts[status]
	switch status {
	case NotWellFormed:
		text = "schema: L1 " + refused(verdict, "").String()[len("bad "):] + "; " + guess(verdict)
	case BadSchema:
		owner, field := uint32(verdict.object), dash(part(verdict.field))
		text = fmt.Sprintf("schema: L2 %s owner=%d part=%s", name, owner, field)
	case BadPath:
		word := "step"
		if verdict.reason == C.FBCHECK_BAD_TEXT {
			word = "at"
		}
		text = fmt.Sprintf("path: %s %s=%d", name, word, uint64(verdict.at))
	case UnmarkedBytes, NoSuchTable:
		text = fmt.Sprintf(text, asked)
	}
	if status == BadPath || status == TooManySteps {
		text = naming(text, asked)
	}
	return &Error{Status: status, text: text}
}

// hinted is the error with what helps behind its text, which a call copies into a room.
func (e *Error) hinted(call func(*C.char, C.size_t) C.size_t) *Error {
	var room [C.FBCHECK_LONGEST_HINT]byte
	if length := call((*C.char)(unsafe.Pointer(&room)), C.size_t(len(room))); length > 0 {
		e.text += "; " + string(room[:length])
	}
	return e
}

// naming is a text with what was asked for.
func naming(text, asked string) string {
	return fmt.Sprintf("%s (%q)", text, asked)
}

// String returns the name of the kind.
func (k Kind) String() string {
	if int(k) >= len(kinds) {
		return fmt.Sprintf("Kind(%d)", uint32(k))
	}
	return kinds[k]
}

// A Value is what is at the end of a path. The fields that its kind doesn't have are 0; but a whole number is in Uint
// and in Int, if it fits there. Uint64, Int64 and Float64 say whether it fits.
type Value struct {
	Kind  Kind
	Uint  uint64
	Int   int64
	Float float64
	Bytes []byte // a slice of the message
}

// Uint64 returns a whole number that isn't negative, and whether this is one.
func (v Value) Uint64() (uint64, bool) {
	return v.Uint, v.Kind == Uint || v.Kind == Int && v.Int >= 0
}

// Int64 returns a whole number that an int64 can hold, and whether this is one.
func (v Value) Int64() (int64, bool) {
	return v.Int, v.Kind == Int || v.Kind == Uint && v.Uint <= math.MaxInt64
}

// Float64 returns a number that a float64 holds exactly (of whole numbers those up to 2^53), and whether this is one.
func (v Value) Float64() (float64, bool) {
	switch v.Kind {
	case Float:
		return v.Float, true
	case Int:
		if -exact <= v.Int && v.Int <= exact {
			return float64(v.Int), true
		}
	case Uint:
		if v.Uint <= exact {
			return float64(v.Uint), true
		}
	}
	return 0, false
}

// exact is the number up to which a float64 holds all whole numbers.
const exact = 1 << 53

func valueOf(told *C.fbcheck_value, message []byte) Value {
	if told.kind == C.FBCHECK_DEFAULT_FLOAT {
		return Value{Kind: Float, Float: math.Float64frombits(uint64(told.number))}
	}
	value := Value{Kind: Kind(told.kind), Uint: uint64(told.number), Int: int64(told.integer)}
	bytes := message[told.at : told.at+told.size : told.at+told.size]
	switch value.Kind {
	case Int:
		if value.Int >= 0 {
			value.Uint = uint64(value.Int)
		}
	case Uint:
		if value.Uint <= math.MaxInt64 {
			value.Int = int64(value.Uint)
		}
	case Float:
		value.Float = floatOf(bytes)
	case Text, Struct, Vector:
		value.Bytes = bytes
	}
	return value
}

// floatOf is the number of 4 or 8 bytes.
func floatOf(bytes []byte) float64 {
	if len(bytes) == 4 {
		return float64(math.Float32frombits(binary.LittleEndian.Uint32(bytes)))
	}
	return math.Float64frombits(binary.LittleEndian.Uint64(bytes))
}

// String returns a string's text, a Bool or a number; otherwise the kind, with a vector's element count or a union's
// type.
func (v Value) String() string {
	switch v.Kind {
	case Bool:
		return strconv.FormatBool(v.Uint != 0)
	case Int:
		return strconv.FormatInt(v.Int, 10)
	case Uint:
		return strconv.FormatUint(v.Uint, 10)
	case Float:
		return strconv.FormatFloat(v.Float, 'g', -1, 64)
	case Text:
		return string(v.Bytes)
	case Vector, Union:
		return fmt.Sprintf("%v(%d)", v.Kind, v.Uint)
	}
	return v.Kind.String()
}

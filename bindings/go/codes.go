// made from fbcheck.h by bindings/make; don't edit

package fbcheck

// A Reason says why a message is refused. It is the number of the code: 10 for V10.
type Reason uint32

// Why a message is refused.
const (
	TooLong         Reason = 0  // the message has 2^31 bytes or more; nothing of it was read
	WrongPrefix     Reason = 1  // the prefix isn't the number of bytes after it
	OutOfBuffer     Reason = 2  // the data there doesn't lie wholly in the buffer
	Misaligned      Reason = 3  // the position isn't a multiple of the alignment
	ZeroOffset      Reason = 4  // an offset is 0
	WrongIdentifier Reason = 5  // the file identifier isn't the one asked for
	TooDeep         Reason = 6  // one table more than MaxDepth allows
	TooManyTables   Reason = 7  // one table more than MaxTables allows
	BadVtable       Reason = 8  // a vtable's size is odd or below 4
	MissingRequired Reason = 9  // a required field is absent
	NoTerminator    Reason = 10 // the byte after a string isn't 0
	LengthsDiffer   Reason = 11 // a vector of unions and its vector of types differ in length
	PastTable       Reason = 12 // a field ends past its table's inline size
	TooManyReads    Reason = 13 // more reads were counted than the options allow
	FlexContent     Reason = 14 // strict: a field holds a flexbuffer, which isn't checked
	NotUtf8         Reason = 15 // a string isn't UTF-8
	UnknownField    Reason = 16 // a table has a field that the schema lacks or deprecates
)

// A Kind says what is at the end of a path.
type Kind uint32

// What is at the end of a path, and which field of a Value has it.
const (
	Absent      Kind = 0  // nothing: a table on the way is absent, or the field is, and has no default
	NoElement   Kind = 1  // nothing: the index is past the vector's end
	OtherMember Kind = 2  // nothing: the union has another type
	Bool        Kind = 3  // Uint: 0 or 1
	Int         Kind = 4  // Int: a Byte, Short, Int or Long
	Uint        Kind = 5  // Uint: a UType, UByte, UShort, UInt or ULong
	Float       Kind = 6  // Float: a Float or Double
	Text        Kind = 7  // Bytes: those of a string, which need not be UTF-8
	Struct      Kind = 8  // Bytes: the bytes of a struct, padding included
	Vector      Kind = 9  // or an array; Uint: its element count; Bytes: their bytes, if scalars or structs
	Table       Kind = 10 // a table
	Union       Kind = 11 // Uint: its type, 0 for none
)

var kinds = [...]string{
	"Absent", "NoElement", "OtherMember", "Bool", "Int", "Uint", "Float", "Text", "Struct", "Vector", "Table", "Union",
}

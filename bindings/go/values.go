//go:build linux && amd64

package fbcheck

// #include "calls.h"
import "C"

import (
	"fmt"
	"math"
	"sync"
)

// An origin tells of which schema a path is, from which root table.
type origin struct {
	schema uint64
	root   C.uint32_t
}

// A Path is a resolved path. It serves the schema that resolved it, and those that With made with the same root table.
// Reading by another schema or root, or by Path{}, fails with Misfit.
type Path struct {
	origin origin
	steps  C.fbcheck_path
}

// Path resolves a path from the root table, such as "items[0]@Parcel.name". Elements are numbered from 0; a member of a
// union is named as in the schema's text, with "_" for a dot. Its errors are *Error.
func (s *Schema) Path(text string) (Path, error) {
	defer s.hold().RUnlock()
	path := Path{origin: s.origin()}
	bytes := []byte(text)
	verdict := C.resolve_path(&s.checker, first(bytes), C.size_t(len(bytes)), &path.steps)
	if verdict.status != C.FBCHECK_OK {
		return Path{}, errorOf(verdict, text).hinted(func(room *C.char, size C.size_t) C.size_t {
			return C.path_hint_of(&s.checker, first(bytes), C.size_t(len(bytes)), room, size)
		})
	}
	return path, nil
}

// Paths is Path for several texts. It returns the first error.
func (s *Schema) Paths(texts ...string) ([]Path, error) {
	paths := make([]Path, len(texts))
	for i, text := range texts {
		path, err := s.Path(text)
		if err != nil {
			return nil, err
		}
		paths[i] = path
	}
	return paths, nil
}

// At returns the path with another index at its last [n], such as "items[7].name" instead of "items[0].name". No vector
// has more than 2^31 elements: with a greater index, values are NoElement. It panics if the path has no [n].
func (p Path) At(index uint64) Path {
	if index > math.MaxUint32 {
		index = math.MaxUint32
	}
	for i := int(p.steps.count) - 1; i >= 0; i-- {
		if step := &p.steps.steps[i]; step.kind == C.FBCHECK_STEP_ELEMENT {
			step.number = C.uint32_t(index)
			return p
		}
	}
	panic("fbcheck: the path has no [n]")
}

func (s *Schema) origin() origin {
	return origin{s.rows.number, s.root}
}

// A reading is the room of a call that reads values.
type reading struct {
	paths  []C.fbcheck_path
	values []C.fbcheck_value
}

var readings = sync.Pool{New: func() any { return new(reading) }}

// lend returns room for as many values, with these paths.
func (s *Schema) lend(values []Value, paths []Path) (*reading, error) {
	if len(values) != len(paths) {
		panic(fmt.Sprintf("fbcheck: %d values for %d paths", len(values), len(paths)))
	}
	room := readings.Get().(*reading)
	// One more than is asked for, so that there is a first one.
	if need := len(paths) + 1; len(room.values) < need {
		room.paths, room.values = make([]C.fbcheck_path, need), make([]C.fbcheck_value, need)
	}
	origin := s.origin()
	for i := range paths {
		if paths[i].origin != origin {
			readings.Put(room)
			return nil, &Error{Misfit, texts[Misfit]}
		}
		lend(&room.paths[i], &paths[i].steps)
	}
	return room, nil
}

// lend copies the steps of a path; a call looks at no more than there are.
func lend(to, from *C.fbcheck_path) {
	to.count, to.each = from.count, from.each
	for i := range from.steps[:from.count] {
		to.steps[i] = from.steps[i]
	}
}

// Read checks a message, and if it is ok returns the value at the end of each path. It returns a *BadBuffer if the
// message is bad, which is then walked once more, to name the place of its fault; and an *Error if a path isn't one of
// this schema from this root table.
func (s *Schema) Read(message []byte, paths ...Path) ([]Value, error) {
	values := make([]Value, len(paths))
	if err := s.ReadInto(values, message, paths...); err != nil {
		return nil, err
	}
	return values, nil
}

// ReadInto is Read into values, as many as there are paths, and allocates nothing for an ok message. After an error,
// values are unchanged.
func (s *Schema) ReadInto(values []Value, message []byte, paths ...Path) error {
	defer s.hold().RUnlock()
	room, err := s.lend(values, paths)
	if err != nil {
		return err
	}
	defer readings.Put(room)
	length, count := C.size_t(len(message)), C.size_t(len(paths))
	verdict := C.read_values(&s.checker, first(message), length, &room.paths[0], &room.values[0], count)
	switch verdict.status {
	case C.FBCHECK_OK:
		room.tell(values, message)
		return nil
	case C.FBCHECK_BAD, C.FBCHECK_TOO_LONG:
		return &BadBuffer{s.check(message)}
	}
	panic("fbcheck: out of memory")
}

// ReadAgain returns the value at the end of each path in a message that was ok, without another check: Check or Read of
// this schema said so of these bytes, with options that have the same Prefixed. A path of a few steps takes 0.2 µs or
// so, however long the message is. Nothing relies on that check: each position is tested before it is read, whatever
// the bytes are. If they aren't those of an ok message, it returns an *Error with Changed; for a path of another schema
// or root, one with Misfit.
func (s *Schema) ReadAgain(message []byte, paths ...Path) ([]Value, error) {
	values := make([]Value, len(paths))
	if err := s.ReadAgainInto(values, message, paths...); err != nil {
		return nil, err
	}
	return values, nil
}

// ReadAgainInto is ReadAgain into values, as many as there are paths, and allocates nothing. After an error, values are
// unchanged.
func (s *Schema) ReadAgainInto(values []Value, message []byte, paths ...Path) error {
	defer s.hold().RUnlock()
	room, err := s.lend(values, paths)
	if err != nil {
		return err
	}
	defer readings.Put(room)
	length, count := C.size_t(len(message)), C.size_t(len(paths))
	if C.read_again(&s.checker, first(message), length, &room.paths[0], &room.values[0], count) != C.FBCHECK_OK {
		return &Error{Changed, texts[Changed]}
	}
	room.tell(values, message)
	return nil
}

// tell sets the values that a call told.
func (r *reading) tell(values []Value, message []byte) {
	for i := range values {
		values[i] = valueOf(&r.values[i], message)
	}
}

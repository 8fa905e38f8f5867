// Does what the lines of standard input say, by the package; tests/test_bindings.py tells what each line means.
package main

import (
	"bufio"
	"encoding/hex"
	"errors"
	"fmt"
	"io"
	"math"
	"math/bits"
	"os"
	"strconv"
	"strings"
	"sync"
	"sync/atomic"
	"testing"
	"time"

	"fbcheck.dev/fbcheck"
)

// pieces is a reader of bytes in pieces of a size, the first of another one.
type pieces struct {
	rest        []byte
	first, size int
}

func (p *pieces) Read(to []byte) (int, error) {
	if len(p.rest) == 0 {
		return 0, io.EOF
	}
	size := p.first
	if size > len(p.rest) {
		size = len(p.rest)
	}
	length := copy(to, p.rest[:size])
	p.rest, p.first = p.rest[length:], p.size
	return length, nil
}

// hindered is a reader that doesn't come to a piece at once: first it returns nothing a few times, then an error, if it
// has one, and every other piece comes with that.
type hindered struct {
	pieces
	empty int
	err   error
	calls int
}

func (h *hindered) Read(to []byte) (int, error) {
	h.calls++
	switch h.calls % (h.empty + 3) {
	case 0:
		return h.pieces.Read(to)
	case 1:
		length, err := h.pieces.Read(to)
		if err == nil {
			err = h.err
		}
		return length, err
	case 2:
		return 0, h.err
	}
	return 0, nil
}

// patient goes through a stream whose reader is hindered, and tells how often that was told.
func patient(schema *fbcheck.Schema, words []string, to io.Writer) (string, error) {
	size, empty := int(number(words[1])), int(number(words[2]))
	hindrance, told := map[string]error{"deadline": os.ErrDeadlineExceeded, "none": nil}[words[3]], map[error]bool{}
	messages := schema.Messages(&hindered{pieces{file(words[0]), size, size}, empty, hindrance, 0})
	for count := 0; ; {
		if messages.Next() {
			count++
			fmt.Fprintln(to, count, messages.Verdict())
			continue
		}
		if messages.Message() != nil {
			return "there is a message", nil
		}
		if err := messages.Err(); err == nil {
			return fmt.Sprintf("end deadline=%v idle=%v", told[os.ErrDeadlineExceeded], told[io.ErrNoProgress]), nil
		} else if err != io.ErrNoProgress && err != os.ErrDeadlineExceeded {
			return "", err
		} else {
			told[err] = true
		}
	}
}

func number(word string) uint64 {
	told, err := strconv.ParseUint(word, 10, 64)
	if err != nil {
		panic(err)
	}
	return told
}

func options(words []string) fbcheck.Options {
	var asked fbcheck.Options
	for _, word := range words {
		name, value, _ := strings.Cut(word, "=")
		switch name {
		case "root":
			asked.Root = value
		case "max_depth":
			asked.MaxDepth = uint32(number(value))
		case "max_tables":
			asked.MaxTables = uint32(number(value))
		case "max_reads":
			asked.MaxReads = number(value)
		case "reads_per_byte":
			asked.ReadsPerByte = uint32(number(value))
		case "ident":
			if asked.OwnIdent = value == "own"; !asked.OwnIdent {
				asked.Ident = value
			}
		case "prefixed":
			asked.Prefixed = value == "1"
		case "alignment":
			asked.NoAlignment = value == "0"
		case "inline_size":
			asked.InlineSize = value == "1"
		case "strict":
			asked.Strict = value == "1"
		case "known_fields":
			asked.KnownFields = value == "1"
		case "utf8":
			asked.UTF8 = value == "1"
		case "plain_bytes":
			asked.PlainBytes = value == "1"
		default:
			panic("no option " + name)
		}
	}
	return asked
}

func value(value fbcheck.Value) string {
	bytes := hex.EncodeToString(value.Bytes)
	switch value.Kind {
	case fbcheck.Absent:
		return "absent"
	case fbcheck.NoElement:
		return "no-element"
	case fbcheck.OtherMember:
		return "other-member"
	case fbcheck.Float:
		return fmt.Sprintf("float:%016x", bits.ReverseBytes64(math.Float64bits(value.Float)))
	case fbcheck.Text:
		return "text:" + hex.EncodeToString([]byte(value.String()))
	case fbcheck.Struct:
		return "struct:" + bytes
	case fbcheck.Vector:
		return fmt.Sprintf("vector:%d:%s", value.Uint, bytes)
	case fbcheck.Union:
		return fmt.Sprintf("union:%d", value.Uint)
	}
	return strings.ToLower(value.String())
}

func check(schema *fbcheck.Schema, message []byte) string {
	verdict := schema.Check(message)
	var bad *fbcheck.BadBuffer
	if err := schema.Verify(message); verdict.OK != (err == nil) || errors.As(err, &bad) && bad.Verdict != verdict {
		return "Verify says otherwise"
	}
	for shift := 0; shift < 16; shift++ {
		if moved := append(make([]byte, shift), message...); schema.Check(moved[shift:]) != verdict {
			return "it says otherwise at another place"
		}
	}
	return verdict.String()
}

func stream(schema *fbcheck.Schema, words []string, to io.Writer) error {
	reader := &pieces{file(words[0]), int(number(words[1])), int(number(words[2]))}
	messages := schema.Messages(reader).MaxBytes(int(number(words[3])))
	count, next := uint64(1), uint64(0)
	for ; messages.Next(); count++ {
		if messages.Count() != count || messages.Begin() != next {
			return errors.New("its count or beginning is wrong")
		}
		next += uint64(len(messages.Message()))
		if messages.Verdict() != schema.Check(messages.Message()) {
			return errors.New("Check says otherwise")
		}
		fmt.Fprintln(to, count, messages.Verdict())
	}
	var failed *fbcheck.StreamError
	if errors.As(messages.Err(), &failed) {
		what := [3]uint64{failed.Number, failed.Begin, uint64(failed.MaxBytes)}
		longer := failed.Size > uint64(failed.MaxBytes)
		if what != [3]uint64{count, next, number(words[3])} || longer != (failed.Status == fbcheck.Oversize) {
			return errors.New("its error says otherwise")
		}
	}
	return messages.Err()
}

func read(schema *fbcheck.Schema, message []byte, texts []string) (string, error) {
	var paths []fbcheck.Path
	for _, text := range texts {
		path, err := schema.Path(text)
		if err != nil {
			return "", err
		}
		paths = append(paths, path)
	}
	values, err := schema.Read(message, paths...)
	if err != nil {
		return "", err
	}
	var told []string
	for i, one := range values {
		again, _ := schema.Read(message, paths[i])
		if fmt.Sprintf("%#v", again[0]) != fmt.Sprintf("%#v", one) {
			return "one path tells otherwise", nil
		}
		told = append(told, value(one))
	}
	return strings.Join(told, " "), nil
}

// again reads without a check: each value alone, and all into an array.
func again(schema *fbcheck.Schema, message []byte, texts []string) (string, error) {
	paths, err := schema.Paths(texts...)
	if err != nil {
		return "", err
	}
	values := make([]fbcheck.Value, len(paths))
	if err := schema.ReadAgainInto(values, message, paths...); err != nil {
		return "", err
	}
	var told []string
	for i, one := range values {
		again, _ := schema.ReadAgain(message, paths[i])
		if fmt.Sprintf("%#v", again[0]) != fmt.Sprintf("%#v", one) {
			return "one path tells otherwise", nil
		}
		told = append(told, value(one))
	}
	return strings.Join(told, " "), nil
}

// each reads the elements of a vector and one more, each without a check.
func each(schema *fbcheck.Schema, words []string) (joined string, err error) {
	message := file(words[0])
	vector, err := schema.Path(words[1])
	if err != nil {
		return "", err
	}
	element, err := schema.Path(words[2])
	if err != nil {
		return "", err
	}
	values, err := schema.Read(message, vector)
	if err != nil {
		return "", err
	}
	var told []string
	for _, index := range append(upTo(values[0].Uint), 1<<32) {
		if err := schema.ReadAgainInto(values, message, element.At(index)); err != nil {
			return "", err
		}
		told = append(told, value(values[0]))
	}
	defer func() {
		if recover() != nil {
			joined = strings.Join(told, " ")
		}
	}()
	vector.At(0)
	return "", nil
}

// upTo returns the numbers from 0 to this one.
func upTo(last uint64) (numbers []uint64) {
	for number := uint64(0); number <= last; number++ {
		numbers = append(numbers, number)
	}
	return numbers
}

// allocations tells how many each of the reads that allocate least makes.
func allocations(schema *fbcheck.Schema, message []byte, text string) (string, error) {
	path, err := schema.Path(text)
	if err != nil {
		return "", err
	}
	paths, values := []fbcheck.Path{path, path, path}, make([]fbcheck.Value, 3)
	into := testing.AllocsPerRun(1000, func() { err = schema.ReadInto(values, message, paths...) })
	again := testing.AllocsPerRun(1000, func() { err = schema.ReadAgainInto(values, message, paths...) })
	read := testing.AllocsPerRun(1000, func() { values, err = schema.Read(message, paths...) })
	return fmt.Sprint(into, again, read), err
}

// numbers tells values as each kind of number, where they fit, and which fields have them.
func numbers(schema *fbcheck.Schema, message []byte, texts []string) (string, error) {
	var told []string
	for _, text := range texts {
		path, err := schema.Path(text)
		if err != nil {
			return "", err
		}
		values, err := schema.Read(message, path)
		if err != nil {
			return "", err
		}
		value := values[0]
		unsigned, fitsUnsigned := value.Uint64()
		signed, fitsSigned := value.Int64()
		real, fitsReal := value.Float64()
		if fitsUnsigned && unsigned != value.Uint || fitsSigned && signed != value.Int {
			return "the fields say otherwise", nil
		}
		told = append(told, fit(unsigned, fitsUnsigned), fit(signed, fitsSigned), fit(real, fitsReal))
	}
	return strings.Join(told, " "), nil
}

func fit(number any, fits bool) string {
	if !fits {
		return "-"
	}
	return fmt.Sprintf("%v", number)
}

func misfit(schema *fbcheck.Schema, words []string) error {
	other, err := schema.With(options(words[:1]))
	if err != nil {
		return err
	}
	path, err := other.Path(words[1])
	if err != nil {
		return err
	}
	_, err = schema.Read(file(words[2]), path)
	return err
}

func stranger(schema *fbcheck.Schema, words []string) error {
	other, err := fbcheck.NewSchema(file(words[0]), options(words[3:]))
	if err != nil {
		return err
	}
	defer other.Close()
	path, err := other.Path(words[1])
	if err != nil {
		return err
	}
	_, err = schema.Read(file(words[2]), path)
	return err
}

func threads(schema *fbcheck.Schema, words []string) string {
	message, count := file(words[0]), int(number(words[1]))
	want := schema.Check(message)
	alike := func() bool { return schema.Check(message) == want }
	if len(words) > 3 {
		path, err := schema.Path(words[3])
		if err != nil {
			return err.Error()
		}
		first, _ := schema.Read(message, path)
		alike = func() bool {
			values, _ := schema.Read(message, path)
			again, _ := schema.ReadAgain(message, path)
			return values[0].String() == first[0].String() && again[0].String() == first[0].String()
		}
	}
	var sum int64
	var all sync.WaitGroup
	for thread := number(words[2]); thread > 0; thread-- {
		all.Add(1)
		go func() {
			defer all.Done()
			for i := 0; i < count; i++ {
				if alike() {
					atomic.AddInt64(&sum, 1)
				}
			}
		}()
	}
	all.Wait()
	return fmt.Sprint(sum)
}

func kilobytes() int {
	return 4 * int(number(strings.Fields(string(file("/proc/self/statm")))[1]))
}

func loads(words []string) string {
	given, count, before := file(words[0]), int(number(words[1])), 0
	for i := 0; i < count; i++ {
		if i == count/10 {
			before = kilobytes()
		}
		schema, err := fbcheck.NewSchema(given, fbcheck.Options{})
		if err != nil {
			return "no schema"
		}
		other, err := schema.With(fbcheck.Options{Prefixed: true})
		if err != nil || other.Check(nil).OK {
			return "no other options"
		}
		other.Close()
		if schema.Check(nil).OK || other.Check(nil).OK {
			return "a good message of no bytes"
		}
		schema.Close()
		if _, err := fbcheck.NewSchema(given[:i%(len(given)/2)], fbcheck.Options{}); err == nil {
			return "a schema"
		}
	}
	return fmt.Sprint(kilobytes() - before)
}

func timed(schema *fbcheck.Schema, words []string) string {
	message, count, best := file(words[0]), int(number(words[1]))/400, time.Hour
	ok := schema.Check(message).OK
	for round := 0; round < 400; round++ {
		begun := time.Now()
		for i := 0; i < count; i++ {
			if schema.Check(message).OK != ok {
				return "another verdict"
			}
		}
		if taken := time.Since(begun) / time.Duration(count); taken < best {
			best = taken
		}
	}
	return fmt.Sprint(best.Nanoseconds())
}

func file(name string) []byte {
	bytes, err := os.ReadFile(name)
	if err != nil {
		panic(err)
	}
	return bytes
}

func dash(name string) string {
	if name == "" {
		return "-"
	}
	return name
}

func done(schema **fbcheck.Schema, words []string, to io.Writer) (told string, err error) {
	defer func() {
		if panicked := recover(); panicked != nil {
			err = fmt.Errorf("%v", panicked)
		}
	}()
	rest := words[1:]
	switch words[0] {
	case "load":
		*schema, err = fbcheck.NewSchema(file(rest[0]), options(rest[1:]))
		return "done", err
	case "with":
		var other *fbcheck.Schema
		if other, err = (*schema).With(options(rest)); err == nil {
			*schema = other
		}
		return "done", err
	case "close":
		(*schema).Close()
		(*schema).Close()
		return "done", nil
	case "check":
		return check(*schema, file(rest[0])), nil
	case "stream":
		return "end", stream(*schema, rest, to)
	case "read":
		return read(*schema, file(rest[0]), rest[1:])
	case "misfit":
		return "done", misfit(*schema, rest)
	case "patient":
		return patient(*schema, rest, to)
	case "numbers":
		return numbers(*schema, file(rest[0]), rest[1:])
	case "again":
		return again(*schema, file(rest[0]), rest[1:])
	case "each":
		return each(*schema, rest)
	case "allocations":
		return allocations(*schema, file(rest[0]), rest[1])
	case "stranger":
		return "done", stranger(*schema, rest)
	case "zero":
		_, err := (*schema).Read(file(rest[0]), fbcheck.Path{})
		return "done", err
	case "threads":
		return threads(*schema, rest), nil
	case "loads":
		return loads(rest), nil
	case "commit":
		return dash(fbcheck.Commit()), nil
	case "time":
		return timed(*schema, rest), nil
	case "most":
		return fmt.Sprint((*schema).MostReads(number(rest[0]))), nil
	case "object":
		return dash((*schema).ObjectName(uint32(number(rest[0])))), nil
	case "field":
		return dash((*schema).FieldName(uint32(number(rest[0])), int64(number(rest[1])))), nil
	}
	return "", errors.New("what is " + words[0])
}

func main() {
	var schema *fbcheck.Schema
	to := bufio.NewWriter(os.Stdout)
	defer to.Flush()
	for lines := bufio.NewScanner(os.Stdin); lines.Scan(); {
		told, err := done(&schema, strings.Split(lines.Text(), " "), to)
		if err != nil {
			told = "error " + strings.TrimPrefix(err.Error(), "fbcheck: ")
		}
		fmt.Fprintf(to, "%s\n.\n", told)
	}
}

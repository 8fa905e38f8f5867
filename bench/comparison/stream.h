// What both verifiers share: a stream of size-prefixed buffers on standard input, of which each gets one line on
// standard output, as fbcheck has it. Input and output are made as cheap as they can be, so that what is compared is
// the verifying: a message is verified where it was read to, no room is zeroed, and lines are written by the 64 KiB.
#pragma once

#include <setjmp.h>
#include <signal.h>
#include <sys/mman.h>
#include <unistd.h>

#include <algorithm>
#include <charconv>
#include <cstdint>
#include <cstdio>
#include <cstdlib>
#include <cstring>
#include <fstream>
#include <iterator>
#include <limits>
#include <string>
#include <utility>
#include <vector>

// fbcheck's own limits.
constexpr uint32_t most_depth = 64;
constexpr uint32_t most_tables = 1000000;

[[noreturn]] inline void fail(const char *text) {
  std::fprintf(stderr, "%s\n", text);
  std::exit(3);
}

// The bytes of standard input that were read and not passed yet. The room grows to the longest message.
class Input {
 public:
  // The next message with its prefix, or nullptr at the end of the input.
  const uint8_t *next(size_t &length) {
    if (!hold(sizeof(uint32_t))) {
      if (held_ != 0) fail("the input ends inside a prefix");
      return nullptr;
    }
    uint32_t declared;
    std::memcpy(&declared, room_ + begin_, sizeof declared);
    length = sizeof declared + declared;
    if (!hold(length)) fail("the input ends inside a message");
    const uint8_t *message = room_ + begin_;
    begin_ += length;
    held_ -= length;
    return message;
  }

 private:
  // Reads until so many bytes are held; false where the input ends before.
  bool hold(size_t wanted) {
    if (held_ >= wanted) return true;
    if (begin_ + wanted > size_) move_to_front(wanted);
    while (held_ < wanted) {
      const ssize_t count = read(STDIN_FILENO, room_ + begin_ + held_, size_ - begin_ - held_);
      if (count < 0) fail("the input can't be read");
      if (count == 0) return false;
      held_ += static_cast<size_t>(count);
    }
    return true;
  }

  void move_to_front(size_t wanted) {
    if (wanted <= size_) {
      std::memmove(room_, room_ + begin_, held_);
    } else {
      auto larger = static_cast<uint8_t *>(std::malloc(wanted));
      if (larger == nullptr) fail("out of memory");
      if (held_ != 0) std::memcpy(larger, room_ + begin_, held_);
      std::free(room_);
      room_ = larger;
      size_ = wanted;
    }
    begin_ = 0;
  }

  size_t size_ = 1 << 18;
  uint8_t *room_ = static_cast<uint8_t *>(std::malloc(size_));
  size_t begin_ = 0;
  size_t held_ = 0;
};

// The lines that wait to be written.
class Lines {
 public:
  ~Lines() { write_out(); }

  void tell(uint64_t number, const char *verdict) {
    if (sizeof room_ - used_ < longest) write_out();
    char *at = std::to_chars(room_ + used_, room_ + sizeof room_, number).ptr;
    *at++ = ' ';
    const size_t count = std::strlen(verdict);
    std::memcpy(at, verdict, count);
    at[count] = '\n';
    used_ = static_cast<size_t>(at - room_) + count + 1;
  }

 private:
  static constexpr size_t longest = 32;

  void write_out() {
    for (size_t done = 0; done < used_;) {
      const ssize_t count = write(STDOUT_FILENO, room_ + done, used_ - done);
      if (count <= 0) fail("the lines can't be written");
      done += static_cast<size_t>(count);
    }
    used_ = 0;
  }

  char room_[1 << 16];
  size_t used_ = 0;
};

// Room whose end no read passes: a read up to 8 GiB behind a message that ends there is caught, and so is an assertion
// that fails. It is for damaged messages alone, since a verifier may read where an offset leads before it asks whether
// that is in the buffer.
class Fence {
 public:
  Fence() {
    void *made = mmap(nullptr, longest + behind, PROT_NONE, MAP_PRIVATE | MAP_ANONYMOUS | MAP_NORESERVE, -1, 0);
    if (made == MAP_FAILED || mprotect(made, longest, PROT_READ | PROT_WRITE) != 0) fail("no room with a fence");
    end_ = static_cast<uint8_t *>(made) + longest;
    struct sigaction caught = {};
    caught.sa_handler = [](int signal) { siglongjmp(back, signal); };
    sigaction(SIGSEGV, &caught, nullptr);
    sigaction(SIGABRT, &caught, nullptr);
  }

  // `ok`, `bad`, `wild` where a read passed the message's end, or `abort` where an assertion failed.
  template <typename Verifies>
  const char *verdict(const uint8_t *message, size_t length, const Verifies &verifies) {
    if (length > longest) fail("a damaged message is too long");
    std::memcpy(end_ - length, message, length);
    switch (sigsetjmp(back, 1)) {
      case 0: return verifies(end_ - length, length) ? "ok" : "bad";
      case SIGABRT: return "abort";
      default: return "wild";
    }
  }

 private:
  static constexpr size_t longest = size_t{1} << 24;
  static constexpr size_t behind = size_t{1} << 33;
  static inline sigjmp_buf back;
  uint8_t *end_;
};

// The bytes of a file.
inline std::string contents(const char *path) {
  std::ifstream file(path, std::ios::binary);
  if (!file) fail("a file can't be read");
  return {std::istreambuf_iterator<char>(file), {}};
}

// Verifies each message of standard input. The status is fbcheck's: 0 where all were good, else 1.
template <typename Verifies>
int verify_stream(const Verifies &verifies) {
  Input input;
  Lines lines;
  bool all_good = true;
  size_t length;
  uint64_t number = 0;
  while (const uint8_t *message = input.next(length)) {
    const bool good = verifies(message, length);
    lines.tell(++number, good ? "ok" : "bad");
    all_good &= good;
  }
  return all_good ? 0 : 1;
}

// The same of messages that may be damaged, each in front of a fence.
template <typename Verifies>
int verify_fenced(const Verifies &verifies) {
  Input input;
  Lines lines;
  Fence fence;
  size_t length;
  uint64_t number = 0;
  while (const uint8_t *message = input.next(length)) lines.tell(++number, fence.verdict(message, length, verifies));
  return 0;
}

// Does with the messages of standard input what the last word asks for.
template <typename Verifies>
int verify_as_asked(const Verifies &verifies, const char *asked) {
  if (std::strcmp(asked, "--fenced") == 0) return verify_fenced(verifies);
  return verify_stream(verifies);
}

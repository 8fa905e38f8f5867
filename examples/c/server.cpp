// Checks the size-prefixed messages of connections, each in a thread of its own, logs a line for each message, and
// keeps the good ones, of which it reads once more when the connection ends.
//
//     c++ -std=c++17 server.cpp $(pkg-config --cflags --libs fbcheck) -pthread -o server
//     ./server deliveries.bfbs CONNECTION..
//
// A connection is a file or a named pipe. The exit status is 0 if all messages were ok, 1 if one was bad, 2 if the
// server didn't start, and 3 if a connection couldn't be read to its end.
#include <fbcheck.hpp>

#include <algorithm>
#include <fstream>
#include <iostream>
#include <iterator>
#include <mutex>
#include <sstream>
#include <thread>

#include <fcntl.h>
#include <unistd.h>

// What all threads share. Nothing of it changes once the server has started, but the log.
struct Service {
    fbcheck::Schema schema;
    std::array<fbcheck::Path, 3> head;
    fbcheck::Path price;
    std::mutex log;

    void tell(const std::ostringstream &line) {
        const std::lock_guard<std::mutex> lock(log);
        std::cout << line.str() << std::endl;
    }
};

// The sum of a vector of shorts. In a buffer a number's lowest byte comes first, as on x86-64; memcpy asks for no
// alignment.
static std::int64_t sum_of(const fbcheck::Value &shorts) {
    std::int64_t sum = 0;
    std::int16_t number;
    for (auto rest = shorts.bytes(); rest.size() > 0; rest = rest.from(sizeof number)) {
        std::memcpy(&number, rest.data(), sizeof number);
        sum += number;
    }
    return sum;
}

// Logs a message, and keeps it if it is good. It is checked once if it is good, and once more for the place of a fault.
static bool serve_one(Service &service, const std::string &name, fbcheck::Bytes message,
                      std::vector<fbcheck::Good> &all) {
    std::ostringstream line;
    line << fbcheck::escaped(name) << ": ";
    auto kept = service.schema.keep(message);
    if (kept) {
        const auto [id, to, stamps] = kept->get(service.head);
        line << "ok id=" << id.number().value_or(0) << " to=\"" << fbcheck::escaped(to.text().value_or(""))
             << "\" stamps=" << sum_of(stamps);
        all.push_back(*std::move(kept));
    } else {
        line << service.schema.check(message);
    }
    service.tell(line);
    return bool(kept);
}

// A file or a pipe, read as far as bytes have come.
class Connection {
  public:
    explicit Connection(const std::string &name) : file_(open(name.c_str(), O_RDONLY)) {}
    ~Connection() { close(file_); }
    Connection(const Connection &) = delete;
    Connection &operator=(const Connection &) = delete;

    // The next bytes, none at the end.
    fbcheck::Bytes more() {
        const auto length = read(file_, piece_.data(), piece_.size());
        if (length < 0) throw std::runtime_error("it can't be read");
        return {piece_.data(), std::size_t(length)};
    }

  private:
    int file_;
    std::array<char, 65536> piece_;
};

// Serves a connection to its end, and returns its status.
static int serve(Service &service, const std::string &name) try {
    Connection connection(name);
    fbcheck::Framer framer(1 << 20, fbcheck::Framing::Prefixed);
    std::vector<fbcheck::Good> all;
    int status = 0;
    for (auto piece = connection.more(); piece.size() > 0; piece = connection.more())
        framer.feed(piece, [&](fbcheck::Bytes message) {
            if (!serve_one(service, name, message, all)) status = 1; // the stream goes on behind a bad message
        });
    framer.finish();
    double sum = 0;
    for (const auto &good : all) sum += good.get(service.price).real().value_or(0);
    std::ostringstream line;
    line << fbcheck::escaped(name) << ": " << all.size() << " kept, price=" << sum;
    service.tell(line);
    return status;
} catch (const std::exception &error) {
    std::cerr << "server: " + fbcheck::escaped(name) + ": " + error.what() + "\n";
    return 3;
}

int main(int count, char **words) try {
    if (count < 3) throw std::runtime_error("usage: server SCHEMA.bfbs CONNECTION..");
    std::ifstream opened(words[1], std::ios::binary);
    const std::string file(std::istreambuf_iterator<char>(opened), {});
    fbcheck::Options options(fbcheck::Framing::Prefixed);
    options.demands = FBCHECK_STRICT | FBCHECK_UTF8;
    fbcheck::Schema schema(file, options);
    const auto head = schema.paths("id", "to.name", "stamps");
    const auto price = schema.path("price");
    Service service{std::move(schema), head, price, {}};
    std::vector<int> statuses(std::size_t(count) - 2);
    std::vector<std::thread> threads;
    for (std::size_t one = 0; one < statuses.size(); ++one)
        threads.emplace_back([&, one] { statuses[one] = serve(service, words[one + 2]); });
    for (auto &thread : threads) thread.join();
    return *std::max_element(statuses.begin(), statuses.end());
} catch (const std::exception &error) {
    std::cerr << "server: " << error.what() << "\n";
    return 2;
}

// Writes one of the corpora to standard output: size-prefixed messages, the same bytes each time.
//
//   make_messages CORPUS MESSAGES PARTS
//
// PARTS is how many elements (items, names) or levels (deep) a message has; the others don't ask for it.

#include <cstdio>
#include <cstdlib>
#include <cstring>
#include <random>
#include <string>
#include <vector>

#include "deep_generated.h"
#include "items_generated.h"
#include "monsters_generated.h"
#include "movies_generated.h"
#include "names_generated.h"
#include "orders_generated.h"
#include "wide_generated.h"

using namespace compare;
using flatbuffers::FlatBufferBuilder;
using flatbuffers::Offset;
using flatbuffers::String;

namespace {

// The numbers come from the engine alone, since distributions differ from one library to the next; and no call has two
// arguments that draw one, since their order is the compiler's.
std::mt19937_64 engine(20260101);

uint64_t below(uint64_t bound) { return engine() % bound; }

bool chance(uint64_t percent) { return below(100) < percent; }

float fraction() { return static_cast<float>(below(100000)) / 100; }

Offset<String> text(FlatBufferBuilder &builder, uint64_t least, uint64_t most) {
  char letters[64];
  const uint64_t length = least + below(most - least + 1);
  for (uint64_t at = 0; at < length; ++at) letters[at] = static_cast<char>('a' + below(26));
  return builder.CreateString(letters, length);
}

// A vector of scalars, structs or offsets, each made by a call.
template <typename Make>
auto list(uint64_t count, const Make &make) {
  std::vector<decltype(make())> made;
  for (uint64_t number = 0; number < count; ++number) made.push_back(make());
  return made;
}

Position position() {
  const float x = fraction(), y = fraction(), z = fraction();
  return {x, y, z};
}

Span span() {
  const uint64_t first = below(1 << 30);
  return {first, first + below(1000)};
}

Offset<Weapon> weapon(FlatBufferBuilder &builder) {
  const auto name = text(builder, 4, 12);
  const auto damage = static_cast<int16_t>(1 + below(50));
  return CreateWeapon(builder, name, damage, chance(50) ? fraction() : 0);
}

Offset<Spell> spell(FlatBufferBuilder &builder) {
  const auto words = text(builder, 6, 20);
  const auto targets = builder.CreateVector(list(below(6), [] { return static_cast<uint32_t>(below(1000)); }));
  return CreateSpell(builder, words, static_cast<int32_t>(below(90)), targets);
}

std::pair<Equipment, Offset<void>> equipment(FlatBufferBuilder &builder) {
  switch (below(5)) {
    case 0: return {Equipment_NONE, 0};
    case 1: return {Equipment_Weapon, weapon(builder).Union()};
    case 2: return {Equipment_Spell, spell(builder).Union()};
    case 3: return {Equipment_Place, builder.CreateStruct(position()).Union()};
    default: return {Equipment_Motto, text(builder, 5, 30).Union()};
  }
}

Offset<Rank> rank(FlatBufferBuilder &builder) {
  const auto title = text(builder, 3, 10);
  const auto since = static_cast<int64_t>(below(1 << 30));
  return CreateRank(builder, title, since, static_cast<uint16_t>(below(12)));
}

uint8_t byte() { return static_cast<uint8_t>(below(256)); }

int64_t score() { return static_cast<int64_t>(below(9999)); }

// The fields of a monster that stand behind an offset, and were made before it.
struct Belongings {
  Offset<String> name, guild;
  Offset<flatbuffers::Vector<uint8_t>> inventory;
  std::pair<Equipment, Offset<void>> equipped = {Equipment_NONE, 0};
  Offset<flatbuffers::Vector<const Position *>> path;
  Offset<flatbuffers::Vector<const Span *>> spans;
  Offset<flatbuffers::Vector<Offset<Weapon>>> weapons;
  Offset<flatbuffers::Vector<Offset<String>>> notes, tags;
  Offset<flatbuffers::Vector<Offset<Spell>>> spells;
  Offset<flatbuffers::Vector<int64_t>> scores;
  Offset<Rank> rank;
};

// What a monster owns; `share` is how many in a hundred own what most do.
Belongings belongings(FlatBufferBuilder &builder, uint64_t share) {
  Belongings made;
  made.name = text(builder, 4, 16);
  if (chance(20)) made.guild = text(builder, 4, 16);
  if (chance(share)) made.inventory = builder.CreateVector(list(below(24), byte));
  if (chance(share)) made.equipped = equipment(builder);
  if (chance(share)) made.path = builder.CreateVectorOfStructs(list(below(6), position));
  if (chance(share)) made.spans = builder.CreateVectorOfStructs(list(below(4), span));
  if (chance(share)) made.weapons = builder.CreateVector(list(below(4), [&] { return weapon(builder); }));
  if (chance(share)) made.notes = builder.CreateVector(list(below(5), [&] { return text(builder, 3, 30); }));
  if (chance(10)) made.tags = builder.CreateVector(list(below(5), [&] { return text(builder, 3, 8); }));
  if (chance(10)) made.spells = builder.CreateVector(list(below(3), [&] { return spell(builder); }));
  if (chance(share)) made.scores = builder.CreateVector(list(below(6), score));
  if (chance(share)) made.rank = rank(builder);
  return made;
}

void add_belongings(MonsterBuilder &monster, const Belongings &made) {
  monster.add_name(made.name);
  monster.add_guild(made.guild);
  monster.add_inventory(made.inventory);
  monster.add_equipped_type(made.equipped.first);
  monster.add_equipped(made.equipped.second);
  monster.add_path(made.path);
  monster.add_spans(made.spans);
  monster.add_weapons(made.weapons);
  monster.add_notes(made.notes);
  monster.add_tags(made.tags);
  monster.add_spells(made.spells);
  monster.add_scores(made.scores);
  monster.add_rank(made.rank);
}

void add_numbers(MonsterBuilder &monster) {
  const Position place = position();
  const Span home = span();
  monster.add_position(&place);
  if (chance(30)) monster.add_home(&home);
  if (chance(50)) monster.add_seed(engine());
  if (chance(50)) monster.add_weight(fraction());
  if (chance(20)) monster.add_experience(engine());
  if (chance(20)) monster.add_gold(static_cast<uint32_t>(1 + below(5000)));
  if (chance(10)) monster.add_karma(fraction());
  if (chance(30)) monster.add_age(static_cast<uint32_t>(1 + below(300)));
  monster.add_hp(static_cast<int16_t>(below(300)));
  if (chance(50)) monster.add_mana(static_cast<int16_t>(below(300)));
  monster.add_colour(static_cast<Colour>(below(3)));
  monster.add_flying(chance(10));
}

// A monster with monsters below it, so many levels. Those at the bottom own little.
Offset<Monster> monster(FlatBufferBuilder &builder, int levels) {
  const Belongings owned = belongings(builder, levels > 0 ? 70 : 20);
  const auto enemy = levels > 0 && chance(50) ? monster(builder, levels - 1) : 0;
  const auto friends = list(levels > 0 ? 1 + below(3) : 0, [&] { return monster(builder, levels - 1); });
  const auto friends_at = friends.empty() ? 0 : builder.CreateVector(friends);
  MonsterBuilder made(builder);
  add_belongings(made, owned);
  add_numbers(made);
  made.add_enemy(enemy);
  made.add_friends(friends_at);
  return made.Finish();
}

std::pair<Role, Offset<void>> role(FlatBufferBuilder &builder) {
  switch (below(6)) {
    case 0: {
      const auto name = text(builder, 4, 16);
      return {Role_Actor, CreateActor(builder, name, static_cast<int16_t>(1900 + below(120))).Union()};
    }
    case 1: return {Role_Animal, builder.CreateStruct(Animal(static_cast<int32_t>(below(5)))).Union()};
    case 2: {
      const uint64_t serial = engine();
      return {Role_Robot, builder.CreateStruct(Robot(serial, static_cast<uint8_t>(below(9)))).Union()};
    }
    case 3: return {Role_Voice, text(builder, 4, 16).Union()};
    default: return {Role_Extra, CreateExtra(builder, static_cast<int32_t>(below(1000))).Union()};
  }
}

Offset<Movie> movie(FlatBufferBuilder &builder) {
  const auto title = text(builder, 5, 25);
  const auto [kind, lead] = role(builder);
  std::vector<uint8_t> kinds;
  std::vector<Offset<void>> cast;
  for (uint64_t left = 4 + below(8); left > 0; --left) {
    const auto [one, value] = role(builder);
    kinds.push_back(one);
    cast.push_back(value);
  }
  const auto kinds_at = builder.CreateVector(kinds);
  const auto cast_at = builder.CreateVector(cast);
  return CreateMovie(builder, title, kind, lead, kinds_at, cast_at, static_cast<uint16_t>(1900 + below(120)));
}

Offset<Reading> reading(FlatBufferBuilder &builder) {
  ReadingBuilder made(builder);
  made.add_time(engine());
  made.add_drift(fraction());
  made.add_sensor(static_cast<uint32_t>(1 + below(100000)));
  if (chance(80)) made.add_warmth(fraction());
  if (chance(80)) made.add_pressure(fraction());
  if (chance(60)) made.add_light(static_cast<uint32_t>(below(5000)));
  made.add_place(static_cast<uint16_t>(1 + below(500)));
  if (chance(60)) made.add_wind(static_cast<int16_t>(below(90)));
  if (chance(40)) made.add_gust(static_cast<int16_t>(below(120)));
  if (chance(20)) made.add_errors(static_cast<uint16_t>(below(9)));
  made.add_kind(static_cast<uint8_t>(1 + below(9)));
  made.add_valid(chance(90));
  if (chance(40)) made.add_rain(static_cast<uint8_t>(below(99)));
  if (chance(70)) made.add_battery(static_cast<uint8_t>(below(101)));
  if (chance(70)) made.add_signal(static_cast<int8_t>(-static_cast<int>(below(100))));
  return made.Finish();
}

Offset<Folder> folder(FlatBufferBuilder &builder, uint64_t levels) {
  const auto inner = levels > 1 ? folder(builder, levels - 1) : 0;
  const auto name = text(builder, 3, 14);
  const uint64_t size = below(1 << 30);
  const auto mark = static_cast<uint8_t>(below(3));
  return CreateFolder(builder, name, size, mark, inner, static_cast<uint32_t>(below(4)));
}

Offset<Item> item(FlatBufferBuilder &builder) {
  ItemBuilder made(builder);
  made.add_id(engine());
  made.add_price(fraction());
  made.add_count(static_cast<uint16_t>(below(50)));
  made.add_kind(static_cast<uint8_t>(below(8)));
  return made.Finish();
}

Offset<Line> line(FlatBufferBuilder &builder) {
  const auto article = text(builder, 4, 14);
  const auto count = static_cast<uint16_t>(1 + below(3));
  return CreateLine(builder, article, count, static_cast<uint32_t>(below(100000)));
}

Offset<Address> address(FlatBufferBuilder &builder) {
  const auto street = text(builder, 6, 20);
  const auto city = text(builder, 4, 12);
  const auto code = chance(80) ? text(builder, 5, 7) : 0;
  return CreateAddress(builder, street, city, code);
}

Offset<Customer> customer(FlatBufferBuilder &builder) {
  const auto name = text(builder, 6, 20);
  const auto home = address(builder);
  return CreateCustomer(builder, below(1 << 30), name, home);
}

Offset<Order> order(FlatBufferBuilder &builder) {
  const auto lines = builder.CreateVector(list(2 + below(2), [&] { return line(builder); }));
  const auto buyer = customer(builder);
  const auto note = chance(30) ? text(builder, 5, 30) : 0;
  const uint64_t id = below(1 << 30);
  const uint64_t time = engine();
  return CreateOrder(builder, id, time, buyer, lines, note, chance(50));
}

void build(FlatBufferBuilder &builder, const std::string &corpus, uint64_t parts) {
  if (corpus == "monsters") {
    builder.FinishSizePrefixed(monster(builder, 2));
  } else if (corpus == "movies") {
    builder.FinishSizePrefixed(movie(builder));
  } else if (corpus == "wide") {
    builder.FinishSizePrefixed(reading(builder));
  } else if (corpus == "deep") {
    builder.FinishSizePrefixed(folder(builder, parts));
  } else if (corpus == "orders") {
    builder.FinishSizePrefixed(order(builder));
  } else if (corpus == "items") {
    const auto items = builder.CreateVector(list(parts, [&] { return item(builder); }));
    builder.FinishSizePrefixed(CreateStore(builder, items));
  } else if (corpus == "names") {
    const auto names = builder.CreateVector(list(parts, [&] { return text(builder, 2, 15); }));
    builder.FinishSizePrefixed(CreateDirectory(builder, names));
  } else {
    std::fprintf(stderr, "no such corpus: %s\n", corpus.c_str());
    std::exit(2);
  }
}

}  // namespace

int main(int count, char **words) {
  if (count != 4) {
    std::fprintf(stderr, "usage: make_messages CORPUS MESSAGES PARTS\n");
    return 2;
  }
  const uint64_t messages = std::strtoull(words[2], nullptr, 10);
  const uint64_t parts = std::strtoull(words[3], nullptr, 10);
  FlatBufferBuilder builder(1 << 20);
  for (uint64_t number = 0; number < messages; ++number) {
    builder.Clear();
    build(builder, words[1], parts);
    if (std::fwrite(builder.GetBufferPointer(), 1, builder.GetSize(), stdout) != builder.GetSize()) return 3;
  }
  return std::fflush(stdout) == 0 ? 0 : 3;
}

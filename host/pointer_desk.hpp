// The desk for C++17: pointer_desk.h, which says what each call costs and refuses, with types of its own and desks that own their memory.
// Sites, pointers and slots are types: no wider number is cut to one, and none is taken for another.
// A Result is no bool: to be accepted is one thing, a yes of ask another. Only `value` and `refusal` of the wrong Result throw, and an opening without memory.
#ifndef POINTER_DESK_HPP
#define POINTER_DESK_HPP

#if __cplusplus < 201703L
#error "pointer_desk.hpp needs C++17"
#endif

#include <algorithm>
#include <array>
#include <cstddef>
#include <cstdint>
#include <limits>
#include <memory>
#include <optional>
#include <tuple>
#include <type_traits>
#include <utility>
#include <variant>
#include <vector>

#include "pointer_desk.h"

namespace pointer_desk {

// The number of a thing; made from its own type alone, by `of` or by a literal.
template <class Thing, class Number>
class Named {
public:
    constexpr explicit Named(Number number) noexcept : number_(number) {}

    template <class Other, class = std::enable_if_t<std::is_arithmetic_v<Other> && !std::is_same_v<Other, Number>>>
    Named(Other) = delete; // it could be too large: say Site::of(n), or 1_site

    // The thing of a number of any type; none where the number does not fit.
    template <class Other>
    [[nodiscard]] static constexpr std::optional<Named> of(Other number) noexcept {
        static_assert(std::is_integral_v<Other>, "a whole number");
        if constexpr (std::is_signed_v<Other>) {
            if (number < 0) return std::nullopt;
        }
        const auto cut = static_cast<Number>(number);
        if (static_cast<Other>(cut) != number) return std::nullopt;
        return Named(cut);
    }

    [[nodiscard]] constexpr Number number() const noexcept { return number_; }

    friend constexpr bool operator==(Named a, Named b) noexcept { return a.number_ == b.number_; }
    friend constexpr bool operator!=(Named a, Named b) noexcept { return a.number_ != b.number_; }
    friend constexpr bool operator<(Named a, Named b) noexcept { return a.number_ < b.number_; }

private:
    Number number_;
};

using Site = Named<struct SiteThing, std::uint8_t>;
using Pointer = Named<struct PointerThing, std::uint8_t>;
using Slot = Named<struct SlotThing, std::uint16_t>;

namespace detail {

// A number written in decimal digits; one more than `most` where it is larger, or has another character.
template <char... Characters>
constexpr unsigned long decimal(unsigned long most) {
    unsigned long n = 0;
    for (char c : {Characters...}) {
        if (c < '0' || c > '9') return most + 1;
        n = std::min(n * 10 + static_cast<unsigned long>(c - '0'), most + 1);
    }
    return n;
}

template <class Thing, class Number, char... Characters>
constexpr Thing literal() {
    constexpr unsigned long most = std::numeric_limits<Number>::max();
    static_assert(decimal<Characters...>(most) <= most, "decimal digits, and a number that fits");
    return Thing(static_cast<Number>(decimal<Characters...>(most)));
}

} // namespace detail

// 0_site, 3_pointer, 1023_slot: a number that does not fit is not compiled.
namespace literals {

template <char... C>
constexpr Site operator""_site() { return detail::literal<Site, std::uint8_t, C...>(); }

template <char... C>
constexpr Pointer operator""_pointer() { return detail::literal<Pointer, std::uint8_t, C...>(); }

template <char... C>
constexpr Slot operator""_slot() { return detail::literal<Slot, std::uint16_t, C...>(); }

} // namespace literals

// Why a call is turned down; after a refusal nothing has changed.
enum class Refusal : std::uint8_t {
    BadShape = DESK_BAD_SHAPE,
    BadTable = DESK_BAD_TABLE,
    BadName = DESK_BAD_NAME,
    SameSite = DESK_SAME_SITE,
    NotHeld = DESK_NOT_HELD,
    CounterFull = DESK_COUNTER_FULL,
    PoolFull = DESK_POOL_FULL,
    EmptySlot = DESK_EMPTY_SLOT,
    Held = DESK_HELD,
    CounterZero = DESK_COUNTER_ZERO,
    IsOwner = DESK_IS_OWNER,
    StillCounted = DESK_STILL_COUNTED,
    NotOwner = DESK_NOT_OWNER,
    BadLine = DESK_BAD_LINE,
    UnknownCode = DESK_UNKNOWN_CODE,
    PrivateCode = DESK_PRIVATE_CODE,
    TooLong = DESK_TOO_LONG,
    BadBook = DESK_BAD_BOOK,
    Twins = DESK_TWINS,
    NotListed = DESK_NOT_LISTED,
    OutOfOrder = DESK_OUT_OF_ORDER
};

[[nodiscard]] constexpr unsigned number(Refusal refusal) noexcept { return static_cast<std::uint8_t>(refusal); }
[[nodiscard]] inline const char *name(Refusal refusal) noexcept { return desk_refusal_name(static_cast<std::uint8_t>(refusal)); }

// The messages of document 01.
struct Copy {
    Site from, to;
    Pointer pointer;
};

struct Dec {
    Site from, to;
    Pointer pointer;
};

struct IncDec {
    Site from, to, third;
    Pointer pointer;
};

inline bool operator==(const Copy &a, const Copy &b) noexcept { return std::tie(a.from, a.to, a.pointer) == std::tie(b.from, b.to, b.pointer); }
inline bool operator==(const Dec &a, const Dec &b) noexcept { return std::tie(a.from, a.to, a.pointer) == std::tie(b.from, b.to, b.pointer); }
inline bool operator==(const IncDec &a, const IncDec &b) noexcept {
    return std::tie(a.from, a.to, a.third, a.pointer) == std::tie(b.from, b.to, b.third, b.pointer);
}

using Message = std::variant<Copy, Dec, IncDec>;

// An accepted make copy or delete: where its message stands, and how many slots were empty before.
struct Posted {
    Slot slot;
    std::uint16_t empty;
    Message message;
};

// An accepted receive: the message that it posted into the same slot, where it posted one.
struct Received {
    Slot slot;
    std::optional<Message> reply;
};

// The messages in flight for a pointer, counted at the site whose counter they act on; none at a site that no desk has.
struct Sheet {
    std::array<std::uint32_t, DESK_SHEET_COUNTS> counts{};

    [[nodiscard]] std::uint32_t copies(Site site) const noexcept { return count(0, site); }
    [[nodiscard]] std::uint32_t decs(Site site) const noexcept { return count(1, site); }
    [[nodiscard]] std::uint32_t inc_decs(Site site) const noexcept { return count(2, site); }

private:
    [[nodiscard]] std::uint32_t count(std::size_t row, Site site) const noexcept {
        return site.number() < DESK_MAX_SITES ? counts[row * DESK_MAX_SITES + site.number()] : 0;
    }
};

// What was asked for, or why it was turned down.
template <class T>
class [[nodiscard]] Result {
public:
    Result(T value) : given_(std::in_place_index<0>, std::move(value)) {}
    Result(Refusal refusal) noexcept : given_(std::in_place_index<1>, refusal) {}

    [[nodiscard]] bool accepted() const noexcept { return given_.index() == 0; }
    [[nodiscard]] bool refused_by(Refusal refusal) const noexcept { return !accepted() && std::get<1>(given_) == refusal; }

    // What was asked for; std::bad_variant_access where it was refused.
    [[nodiscard]] const T &value() const & { return std::get<0>(given_); }
    [[nodiscard]] T &&value() && { return std::get<0>(std::move(given_)); }

    // Why it was turned down; std::bad_variant_access where it was accepted.
    [[nodiscard]] Refusal refusal() const { return std::get<1>(given_); }

private:
    std::variant<T, Refusal> given_;
};

namespace detail {

// The message of slot bytes; none in an empty slot.
inline std::optional<Message> message_of(const std::uint8_t *bytes) noexcept {
    const Site from(bytes[1]), to(bytes[2]), third(bytes[3]);
    const Pointer pointer(bytes[4]);
    switch (bytes[0]) {
    case 1: return std::optional<Message>(std::in_place, Copy{from, to, pointer});
    case 2: return std::optional<Message>(std::in_place, Dec{from, to, pointer});
    case 3: return std::optional<Message>(std::in_place, IncDec{from, to, third, pointer});
    default: return std::nullopt;
    }
}

// A desk's parts, as they stand in its memory.
struct Parts {
    std::uint8_t sites;
    std::uint8_t *owners;
    std::size_t pointers;
    std::uint16_t *send;
    std::size_t cells;
    std::uint8_t *receive;
    std::uint64_t *words;
    std::uint8_t *pool;
    std::size_t pool_bytes;
    std::uint16_t *to_post, *to_receive;
    std::size_t pairs;
};

// The desk of document 01: its slots, and how its calls are made.
struct Plain {
    static constexpr std::size_t slot_bytes = DESK_SLOT_BYTES;
    static constexpr bool numbered = false, in_words = false;
    static constexpr auto open = desk_open;
    static constexpr auto make_copy = desk_make_copy;
    static constexpr auto receive = desk_receive;
    static constexpr auto remove = desk_delete;
    static constexpr auto ask = desk_ask;
    static constexpr auto share = desk_share;
    static constexpr auto sheet = desk_sheet;

    template <class Call, class... Arguments>
    static auto made(Call call, const Parts &p, Arguments... arguments) noexcept {
        return call(p.sites, p.owners, p.pointers, p.send, p.cells, p.receive, p.cells, p.pool, p.pool_bytes, arguments...);
    }
};

// The in-order desk (document 02, Three).
struct InOrder {
    static constexpr std::size_t slot_bytes = DESK_ORDERED_SLOT_BYTES;
    static constexpr bool numbered = true, in_words = false;
    static constexpr auto open = desk_ordered_open;
    static constexpr auto make_copy = desk_ordered_make_copy;
    static constexpr auto receive = desk_ordered_receive;
    static constexpr auto remove = desk_ordered_delete;
    static constexpr auto ask = desk_ordered_ask;
    static constexpr auto share = desk_ordered_share;
    static constexpr auto sheet = desk_ordered_sheet;

    template <class Call, class... Arguments>
    static auto made(Call call, const Parts &p, Arguments... arguments) noexcept {
        return call(p.sites, p.owners, p.pointers, p.send, p.cells, p.receive, p.cells, p.pool, p.pool_bytes,
                    p.to_post, p.pairs, p.to_receive, p.pairs, arguments...);
    }
};

// The desk on words (document 02, Five).
struct InWords {
    static constexpr std::size_t slot_bytes = DESK_SLOT_BYTES;
    static constexpr bool numbered = false, in_words = true;
    static constexpr auto open = desk_words_open;
    static constexpr auto make_copy = desk_words_make_copy;
    static constexpr auto receive = desk_words_receive;
    static constexpr auto remove = desk_words_delete;
    static constexpr auto ask = desk_words_ask;
    static constexpr auto share = desk_words_share;
    static constexpr auto sheet = desk_words_sheet;

    template <class Call, class... Arguments>
    static auto made(Call call, const Parts &p, Arguments... arguments) noexcept {
        return call(p.sites, p.owners, p.pointers, p.send, p.cells, p.words, p.pointers, p.pool, p.pool_bytes, arguments...);
    }
};

} // namespace detail

// A desk that owns what it lends, in one allocation. It moves and is not copied; what is left of a moved one refuses every call: BadShape.
template <class Kind>
class BasicDesk {
public:
    // An opened desk of so many sites and slots, with an owner for each pointer.
    static Result<BasicDesk> open(std::size_t sites, const std::vector<Site> &owners, std::size_t slots) {
        if (sites > DESK_MAX_SITES || owners.size() > DESK_MAX_POINTERS || slots > DESK_MAX_SLOTS) return Refusal::BadShape;
        BasicDesk desk(Sizes{sites, owners.size(), slots});
        const detail::Parts parts = desk.parts();
        std::transform(owners.begin(), owners.end(), parts.owners, [](Site owner) { return owner.number(); });
        const auto answer = Kind::made(Kind::open, parts);
        if (answer.number != DESK_ACCEPTED) return Refusal(answer.number);
        return desk;
    }

    BasicDesk(BasicDesk &&other) noexcept : sizes_(std::exchange(other.sizes_, Sizes{})), memory_(std::move(other.memory_)) {}
    BasicDesk &operator=(BasicDesk &&other) noexcept {
        sizes_ = std::exchange(other.sizes_, Sizes{});
        memory_ = std::move(other.memory_);
        return *this;
    }
    BasicDesk(const BasicDesk &) = delete;
    BasicDesk &operator=(const BasicDesk &) = delete;
    ~BasicDesk() = default;

    // Site `from` sends site `to` a copy.
    Result<Posted> make_copy(Site from, Site to, Pointer pointer) noexcept {
        return posted(Kind::made(Kind::make_copy, parts(), from.number(), to.number(), pointer.number()));
    }

    // The message in a slot arrives.
    Result<Received> receive(Slot slot) noexcept {
        const auto a = Kind::made(Kind::receive, parts(), slot.number());
        if (a.number != DESK_ACCEPTED) return Refusal(a.number);
        return Received{Slot(a.value), detail::message_of(a.message)};
    }

    // A site that holds the pointer lets it go (`delete` is a word of C++).
    Result<Posted> remove(Site site, Pointer pointer) noexcept {
        return posted(Kind::made(Kind::remove, parts(), site.number(), pointer.number()));
    }

    // True where nobody elsewhere points at it: its owner may drop it.
    Result<bool> ask(Site site, Pointer pointer) const noexcept {
        const auto a = Kind::made(Kind::ask, parts(), site.number(), pointer.number());
        if (a.number != DESK_ACCEPTED) return Refusal(a.number);
        return a.value == 1;
    }

    // What a site that is not the owner adds to the owner's counter.
    Result<std::int32_t> share(Site site, Pointer pointer) const noexcept {
        const desk_share_answer a = Kind::made(Kind::share, parts(), site.number(), pointer.number());
        if (a.number != DESK_ACCEPTED) return Refusal(a.number);
        return a.share;
    }

    Result<Sheet> sheet(Pointer pointer) const noexcept {
        Sheet sheet;
        const std::uint8_t refused = Kind::made(Kind::sheet, parts(), pointer.number(), sheet.counts.data(), sheet.counts.size());
        if (refused != DESK_ACCEPTED) return Refusal(refused);
        return sheet;
    }

    // On words: how many sites hold the pointer, its owner among them.
    Result<std::uint16_t> count_holders(Pointer pointer) const noexcept {
        static_assert(Kind::in_words, "only the desk on words counts holders");
        const desk_answer a = Kind::made(desk_words_count, parts(), pointer.number());
        if (a.number != DESK_ACCEPTED) return Refusal(a.number);
        return a.value;
    }

    // The message in a slot; none where it is empty, or where there is no such slot.
    [[nodiscard]] std::optional<Message> message(Slot slot) const noexcept {
        if (slot.number() >= sizes_.slots) return std::nullopt;
        return detail::message_of(bytes_of(slot));
    }

    // In order: the number of the message in a slot, which a host carries with it.
    [[nodiscard]] std::optional<std::uint16_t> number(Slot slot) const noexcept {
        static_assert(Kind::numbered, "only the in-order desk numbers its messages");
        if (!message(slot)) return std::nullopt;
        const std::uint8_t *bytes = bytes_of(slot);
        return static_cast<std::uint16_t>(bytes[5] << 8 | bytes[6]);
    }

private:
    struct Sizes {
        std::size_t sites = 0, pointers = 0, slots = 0;

        Sizes() = default;
        Sizes(std::size_t s, std::size_t g, std::size_t n) : sites(s), pointers(g), slots(n) {}
        [[nodiscard]] std::size_t cells() const noexcept { return DESK_CELLS(sites, pointers); }
        [[nodiscard]] std::size_t pairs() const noexcept { return Kind::numbered ? DESK_PAIRS(sites) : 0; }
        [[nodiscard]] std::size_t words() const noexcept { return Kind::in_words ? pointers : 0; }
        [[nodiscard]] std::size_t receive() const noexcept { return Kind::in_words ? 0 : cells(); }
        [[nodiscard]] std::size_t pool() const noexcept { return slots * Kind::slot_bytes; }
        [[nodiscard]] std::size_t all() const noexcept {
            return words() * sizeof(std::uint64_t) + (cells() + 2 * pairs()) * sizeof(std::uint16_t) + receive() + pool() + pointers;
        }
    };

    // Bytes that are aligned for anything: words first, then counters and numbers, then bytes.
    explicit BasicDesk(Sizes sizes) : sizes_(sizes), memory_(std::make_unique<unsigned char[]>(sizes.all())) {}

    [[nodiscard]] detail::Parts parts() const noexcept {
        if (!memory_) return detail::Parts{};
        const std::size_t cells = sizes_.cells(), pairs = sizes_.pairs();
        auto *words = reinterpret_cast<std::uint64_t *>(memory_.get());
        auto *numbers = reinterpret_cast<std::uint16_t *>(words + sizes_.words());
        auto *bytes = reinterpret_cast<std::uint8_t *>(numbers + cells + 2 * pairs), *pool = bytes + sizes_.receive();
        return {static_cast<std::uint8_t>(sizes_.sites), pool + sizes_.pool(), sizes_.pointers, numbers, cells, bytes, words,
                pool, sizes_.pool(), numbers + cells, numbers + cells + pairs, pairs};
    }

    [[nodiscard]] const std::uint8_t *bytes_of(Slot slot) const noexcept { return parts().pool + slot.number() * Kind::slot_bytes; }

    // The desk posts a message where it accepts, as is proved.
    template <class Answer>
    static Result<Posted> posted(const Answer &a) noexcept {
        if (a.number != DESK_ACCEPTED) return Refusal(a.number);
        return Posted{Slot(a.value), a.empty, detail::message_of(a.message).value()};
    }

    Sizes sizes_;
    std::unique_ptr<unsigned char[]> memory_;
};

using Desk = BasicDesk<detail::Plain>;
using OrderedDesk = BasicDesk<detail::InOrder>;
using WordDesk = BasicDesk<detail::InWords>;

} // namespace pointer_desk

#endif

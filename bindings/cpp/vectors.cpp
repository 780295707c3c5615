// The stored vectors (crates/replay/stdin and oracle/lists.txt, on standard input) through the C++ binding; oracle/NOTES.md has their format.
#include <cstdio>
#include <cstring>
#include <initializer_list>
#include <iostream>
#include <sstream>
#include <string>

#include "corbelrush.hpp"

namespace cr = corbelrush;

// ---- what does not compile: settings in another order than theirs, or of plain numbers

template <class S, class, class... A> struct makes : std::false_type {};
template <class S, class... A> struct makes<S, std::void_t<decltype(S{std::declval<A>()...})>, A...> : std::true_type {};
template <class S, class... A> constexpr bool made_of = makes<S, void, A...>::value;

static_assert(made_of<cr::blur_settings, cr::kernel, cr::decimations, cr::strength, cr::edge>);
static_assert(!made_of<cr::blur_settings, cr::kernel, cr::strength, cr::decimations, cr::edge>);
static_assert(!made_of<cr::blur_settings, cr::kernel, cr::decimations, cr::edge, cr::strength>);
static_assert(!made_of<cr::blur_settings, cr::kernel, std::uint32_t, cr::strength, cr::edge>);
static_assert(!made_of<cr::blur_settings, cr::kernel, cr::decimations, float, cr::edge>);
static_assert(!made_of<cr::blur_settings, cr::kernel, cr::decimations, cr::strength, std::uint32_t>);
static_assert(made_of<cr::shadow_settings, cr::blur_settings, cr::offset, cr::colour, cr::composite>);
static_assert(!made_of<cr::shadow_settings, cr::blur_settings, cr::colour, cr::offset, cr::composite>);
static_assert(!std::is_convertible_v<cr::const_bytes, cr::bytes>);
static_assert(!std::is_convertible_v<cr::output_place, cr::input_place>);

// ---- a vector

using words = std::vector<std::uint64_t>;

// What a call lends, before it and after it.
struct lent {
    words list;
    std::vector<std::uint8_t> bytes, other, scratch, copy;
};

struct vector {
    std::uint32_t entry, n, composite, x, y, unit, answer;
    cr::size size;
    cr::edge edge;
    float strength, dx, dy;
    cr::colour colour;
    std::uint16_t sheet;
    std::uint64_t used, place, second;
    words out, taps;
    lent before, after;
};

// The numbers of a line, taken in order.
class numbers {
public:
    explicit numbers(const std::string &line) : from_(line) {}

    std::uint64_t next()
    {
        std::uint64_t number;
        if (!(from_ >> number)) throw std::string("a number too few");
        return number;
    }

    std::uint32_t small() { return static_cast<std::uint32_t>(next()); }

    float real()
    {
        const std::uint32_t bits = small();
        float value;
        std::memcpy(&value, &bits, sizeof value);
        return value;
    }

    words some(std::uint64_t count)
    {
        words all(count);
        for (auto &word : all) word = next();
        return all;
    }

    void pair(words &before, words &after)
    {
        before = some(next());
        after = next() ? some(before.size()) : before;
    }

    void pair(std::vector<std::uint8_t> &before, std::vector<std::uint8_t> &after)
    {
        words was, is;
        pair(was, is);
        before.assign(was.begin(), was.end());
        after.assign(is.begin(), is.end());
    }

    bool end() { return (from_ >> std::ws).eof(); }

private:
    std::istringstream from_;
};

// A work buffer, of which so many first bytes are 0 afterwards.
void work(std::vector<std::uint8_t> &before, std::vector<std::uint8_t> &after, std::uint64_t length, std::uint64_t zeroed)
{
    for (std::uint64_t i = 0; i < length; i++) before.push_back(static_cast<std::uint8_t>(i % 251 + 1));
    after = before;
    for (std::uint64_t i = 0; i < zeroed; i++) after.at(i) = 0;
}

vector read(const std::string &line)
{
    numbers from(line);
    vector v;
    v.entry = from.small();
    v.size.w = from.small();
    v.size.h = from.small();
    v.n = from.small();
    v.edge = static_cast<cr::edge>(from.small());
    for (float *real : {&v.strength, &v.dx, &v.dy, &v.colour.red, &v.colour.green, &v.colour.blue, &v.colour.alpha})
        *real = from.real();
    for (std::uint32_t *small : {&v.composite, &v.x, &v.y}) *small = from.small();
    const std::uint64_t scratch = from.next(), copy = from.next();
    v.unit = from.small();
    v.sheet = static_cast<std::uint16_t>(from.next());
    for (std::uint64_t *large : {&v.used, &v.place, &v.second}) *large = from.next();
    v.answer = from.small();
    work(v.before.scratch, v.after.scratch, scratch, from.next());
    work(v.before.copy, v.after.copy, copy, from.next());
    v.out = from.some(4);
    v.taps = from.some(from.next());
    from.pair(v.before.list, v.after.list);
    from.pair(v.before.bytes, v.after.bytes);
    from.pair(v.before.other, v.after.other);
    if (!from.end()) throw std::string("a number too many");
    return v;
}

// ---- its call

// A number, and what is answered beside it.
struct answer {
    std::uint32_t number;
    words out;
    answer(cr::status why, words all = {}) : number(why.number()), out(std::move(all)) { out.resize(4); }
};

// A kernel that is refused when it is made is refused in the place of its check, unless the call is refused before it.
template <class R> std::optional<answer> refused(const R &made, const answer &call, std::initializer_list<std::uint32_t> first)
{
    if (made) return std::nullopt;
    for (const std::uint32_t number : first)
        if (call.number == number) return call;
    return answer(made);
}

std::vector<float> weights_of(const vector &v)
{
    std::vector<float> weights;
    for (const std::uint64_t word : v.taps) {
        const std::uint32_t bits = static_cast<std::uint32_t>(word);
        float weight;
        std::memcpy(&weight, &bits, sizeof weight);
        weights.push_back(weight);
    }
    return weights;
}

// Blur and shadow, of a picture and of its planes.
answer weighed(const vector &v, lent &by, cr::worker *worker)
{
    const auto made = cr::kernel::make(weights_of(v)), good = cr::kernel::make(std::array{1.0f});
    const cr::blur_settings blur{made ? *made : *good, cr::decimations{v.n}, cr::strength{v.strength}, v.edge};
    const cr::shadow_settings shadow{blur, {v.dx, v.dy}, v.colour, static_cast<cr::composite>(v.composite)};
    lent spare = by;
    lent &used = made ? by : spare;
    const auto called = [&]() -> cr::status {
        switch (v.entry) {
        case 1: return worker ? worker->blur(used.bytes, v.size, blur) : cr::blur(used.bytes, v.size, used.scratch, blur);
        case 3:
            return worker ? worker->shadow(used.bytes, v.size, shadow)
                          : cr::shadow(used.bytes, v.size, used.scratch, used.copy, shadow);
        case 23:
            return worker ? worker->blur_planes(used.bytes, v.size, blur)
                          : cr::blur_planes(used.bytes, v.size, used.scratch, blur);
        default:
            return worker ? worker->shadow_planes(used.bytes, v.size, shadow)
                          : cr::shadow_planes(used.bytes, v.size, used.scratch, used.copy, shadow);
        }
    };
    const answer call = called();
    return refused(made, call, {1, 2, 3}).value_or(call);
}

// A blur, a shift or a shadow once more, as a list of one recipe: the same number and bytes, but that a list lends a copy
// too. A kernel that is refused when it is made is in no list.
bool same_as_list(const vector &v, cr::worker &worker)
{
    const auto made = cr::kernel::make(weights_of(v));
    if (v.entry > 3 || (v.entry != 2 && !made)) return true;
    const cr::blur_settings blur{*made, cr::decimations{v.n}, cr::strength{v.strength}, v.edge};
    const cr::shadow_settings shadow{blur, {v.dx, v.dy}, v.colour, static_cast<cr::composite>(v.composite)};
    const cr::kernel_row first{0};
    const std::array list{v.entry == 1   ? cr::blur_recipe(first, blur)
                          : v.entry == 2 ? cr::shift_recipe({v.dx, v.dy})
                                         : cr::shadow_recipe(first, shadow)};
    std::vector<std::uint8_t> picture = v.before.bytes;
    return worker.recipes(picture, v.size, list, made->row()).number() == v.answer && picture == v.after.bytes;
}

// A list of recipes, of 13 words each.
answer chained(const vector &v, lent &by, cr::worker *worker)
{
    std::vector<corbelrush_recipe> list(by.list.size() / 13);
    static_assert(sizeof(corbelrush_recipe) == 13 * sizeof(std::uint32_t));
    const std::vector<std::uint32_t> fields(by.list.begin(), by.list.end());
    if (!list.empty()) std::memcpy(list.data(), fields.data(), list.size() * sizeof(corbelrush_recipe));
    const auto index = worker ? worker->recipes(by.bytes, v.size, list, weights_of(v))
                              : cr::recipes(by.bytes, v.size, by.scratch, by.copy, list, weights_of(v));
    return {index, {*index}};
}

// The blur in whole numbers, and shares.
answer counted(const vector &v, lent &by, cr::worker *worker)
{
    const std::vector<std::uint32_t> numerators(v.taps.begin(), v.taps.end());
    const auto made = cr::whole_kernel::make(numerators);
    const auto good = cr::whole_kernel::make(std::array<std::uint32_t, 1>{1});
    const cr::whole_settings how{made ? *made : *good, cr::decimations{v.n}, v.edge};
    lent spare = by;
    lent &used = made ? by : spare;
    if (v.entry == 17) {
        const answer call = worker ? worker->blur_whole(used.bytes, v.size, how)
                                   : cr::blur_whole(used.bytes, v.size, used.scratch, how);
        return refused(made, call, {1, 2, 3}).value_or(call);
    }
    const bool sum = made.number() == CORBELRUSH_WRONG_SUM;
    const auto before = sum ? std::initializer_list<std::uint32_t>{1, 9, 21, 22} : std::initializer_list<std::uint32_t>{1};
    if (v.entry == 27) {
        const auto share = cr::share(v.size, how, cr::output_place{v.place}, cr::input_place{v.second});
        return refused(made, {share, {*share}}, before).value_or(answer(share, {*share}));
    }
    std::vector<corbelrush_point> points;
    for (std::size_t i = 0; i + 1 < used.list.size(); i += 2) points.push_back({used.list[i], used.list[i + 1]});
    const auto listed = cr::shares(v.size, how, cr::output_place{v.place}, points);
    for (std::size_t i = 0; i < points.size(); i++) {
        used.list[2 * i] = points[i].place;
        used.list[2 * i + 1] = points[i].share;
    }
    return refused(made, {listed, {*listed}}, before).value_or(answer(listed, {*listed}));
}

// The mender and the rebuilder.
answer mended(const vector &v, lent &by)
{
    std::vector<corbelrush_change> changes;
    const auto word = [&by](std::size_t i) { return static_cast<std::uint32_t>(by.list[i]); };
    for (std::size_t i = 0; i + 1 < by.list.size(); i += 2) changes.push_back({word(i), word(i + 1)});
    if (v.entry == 16) return cr::rebuild(by.bytes, v.size, changes);
    const auto count = cr::mend(by.bytes, v.size, changes);
    for (std::size_t i = 0; i < changes.size(); i++) {
        by.list[2 * i] = changes[i].place;
        by.list[2 * i + 1] = changes[i].pixel;
    }
    return {count, {*count}};
}

// Area sums.
answer summed(const vector &v, lent &by)
{
    std::vector<std::uint32_t> table(by.list.begin(), by.list.end());
    if (v.entry == 19) {
        const cr::region box{v.x, v.y, static_cast<std::uint32_t>(v.place), static_cast<std::uint32_t>(v.second)};
        const auto sum = cr::area_box(table, v.size, box);
        return {sum, {*sum}};
    }
    const cr::alpha_change change{v.place, static_cast<std::uint8_t>(v.unit), static_cast<std::uint8_t>(v.sheet)};
    const answer call = v.entry == 18 ? cr::area_build(by.bytes, v.size, table) : cr::area_update(table, v.size, change);
    by.list.assign(table.begin(), table.end());
    return call;
}

// Check, view, sample and spread.
answer graded(const vector &v, lent &by)
{
    if (v.entry == 4) {
        const auto found = cr::check(by.bytes, v.size);
        return {found, *found ? words{1, **found} : words{}};
    }
    if (v.entry == 7) {
        const auto spread = cr::spread(weights_of(v), cr::decimations{v.n});
        return {spread, {*spread}};
    }
    const cr::view view(by.bytes, v.size, v.edge);
    if (v.entry == 5) return view.readable();
    const auto p = view.sample(static_cast<std::int32_t>(v.x), static_cast<std::int32_t>(v.y));
    return cr::status{p[0] | std::uint32_t{p[1]} << 8 | std::uint32_t{p[2]} << 16 | std::uint32_t{p[3]} << 24};
}

// Plates.
answer plated(const vector &v, lent &by, cr::worker *worker)
{
    if (v.entry == 8) {
        const auto part = cr::plate_picture(by.bytes, v.x);
        return {part, {part->size.w, part->size.h, part->offset, part->length}};
    }
    if (v.entry == 9) return worker ? worker->plate_job(by.bytes) : cr::plate_job(by.bytes, by.scratch);
    if (v.entry == 12) {
        const auto label = cr::plate_label(by.bytes, v.x);
        return {label, *label ? words{cr::number((*label)->unit), (*label)->sheet} : words{}};
    }
    const cr::label label{static_cast<cr::unit>(v.unit), v.sheet};
    const auto used = v.entry == 10 ? cr::plate_start(by.bytes, static_cast<cr::plate_version>(v.unit))
                                    : cr::plate_add(by.bytes, v.used, by.other, v.size, label);
    return {used, {*used}};
}

// Image files.
answer filed(const vector &v, lent &by)
{
    if (v.entry == 13) {
        const auto size = cr::pam_read(by.other, by.bytes);
        return {size, {size->w, size->h, size->length()}};
    }
    const auto written = cr::pam_write(by.bytes, v.size, by.other);
    return {written, {written->length, written->place}};
}

answer call(const vector &v, lent &by, cr::worker *worker)
{
    switch (v.entry) {
    case 1: case 3: case 23: case 25: return weighed(v, by, worker);
    case 2: return cr::shift(by.bytes, v.size, {v.dx, v.dy});
    case 4: case 5: case 6: case 7: return graded(v, by);
    case 8: case 9: case 10: case 11: case 12: return plated(v, by, worker);
    case 13: case 14: return filed(v, by);
    case 15: case 16: return mended(v, by);
    case 17: case 27: case 28: return counted(v, by, worker);
    case 18: case 19: case 20: return summed(v, by);
    case 21: return cr::to_planes(by.bytes, v.size, by.other);
    case 22: return cr::from_planes(by.bytes, v.size, by.other);
    case 24: return cr::shift_planes(by.bytes, v.size, {v.dx, v.dy});
    case 26: return chained(v, by, worker);
    default: throw std::string("no such entry");
    }
}

// ---- all of them

bool agrees(const vector &v, cr::worker &worker)
{
    lent by = v.before;
    const answer done = call(v, by, nullptr);
    const lent &after = v.after;
    if (done.number != v.answer || done.out != v.out || by.list != after.list || by.bytes != after.bytes ||
        by.other != after.other || by.scratch != after.scratch || by.copy != after.copy)
        return false;
    if (v.answer == CORBELRUSH_TOO_SHORT) return true; // a worker has room
    by = v.before;
    const answer kept = call(v, by, &worker);
    return kept.number == v.answer && kept.out == v.out && by.bytes == after.bytes && same_as_list(v, worker);
}

int main()
{
    cr::worker worker;
    std::array<bool, 29> seen{};
    unsigned count = 0, failed = 0;
    for (std::string line; std::getline(std::cin, line); count++) {
        try {
            const vector v = read(line);
            seen.at(v.entry) = true;
            if (agrees(v, worker)) continue;
            std::printf("vector %u disagrees\n", count + 1);
        } catch (const std::string &why) {
            std::printf("vector %u: %s\n", count + 1, why.c_str());
        }
        failed++;
    }
    int entries = 0;
    for (const bool one : seen) entries += one;
    std::printf("%u vectors of %d functions, %u failed\n", count, entries, failed);
    return failed || !count;
}

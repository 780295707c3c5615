// Corbelrush for C++17: every function of corbelrush.h with types that cannot be exchanged, and results that must be looked at.
//
// A picture is premultiplied RGBA8, 4wh bytes, row by row from the top; corbelrush.h says what each function does and which
// numbers it refuses with. A refused call changes no byte. Nothing here throws but the growth of a worker's buffers.
#ifndef CORBELRUSH_HPP
#define CORBELRUSH_HPP

#include <array>
#include <cstddef>
#include <cstdint>
#include <optional>
#include <type_traits>
#include <utility>
#include <vector>

#include "corbelrush.h"

namespace corbelrush {

// ---- what is handed over

// A lent stretch of a caller's memory. C++17 has no std::span.
template <class T> class span {
public:
    constexpr span() noexcept = default;
    constexpr span(T *data, std::size_t size) noexcept : data_(data), size_(size) {}
    template <std::size_t N> constexpr span(T (&array)[N]) noexcept : data_(array), size_(N) {}
    // Of a container that holds its elements in one piece: std::vector, std::array, another span.
    template <class C, class = std::enable_if_t<std::is_convertible_v<
                           std::remove_pointer_t<decltype(std::declval<C &>().data())> (*)[], T (*)[]>>>
    constexpr span(C &&container) noexcept : data_(container.data()), size_(container.size())
    {
    }

    constexpr T *data() const noexcept { return data_; }
    constexpr std::size_t size() const noexcept { return size_; }
    constexpr T *begin() const noexcept { return data_; }
    constexpr T *end() const noexcept { return data_ + size_; }
    constexpr T &operator[](std::size_t i) const noexcept { return data_[i]; }
    constexpr span first(std::size_t count) const noexcept { return {data_, count}; }

private:
    T *data_ = nullptr;
    std::size_t size_ = 0;
};

using bytes = span<std::uint8_t>;
using const_bytes = span<const std::uint8_t>;

struct size {
    std::uint32_t w, h;
    // How many pixels: as many entries are always enough for a list.
    constexpr std::size_t pixels() const noexcept { return std::size_t{w} * h; }
    constexpr std::size_t length() const noexcept { return 4 * pixels(); }
};

// What a picture is beyond its borders.
enum class edge : std::uint32_t {
    duplicate = CORBELRUSH_DUPLICATE,
    wrap = CORBELRUSH_WRAP,
    mirror = CORBELRUSH_MIRROR,
    none = CORBELRUSH_NONE
};

enum class unit : std::uint32_t { milliohm = CORBELRUSH_MILLIOHM, microohm = CORBELRUSH_MICROOHM };

enum class plate_version : std::uint32_t { one = 1, two = 2, three = 3 };

// How many halvings and doublings a blur has.
struct decimations {
    std::uint32_t value;
    explicit constexpr decimations(std::uint32_t n) noexcept : value(n) {}
};

// A switch: above 0 a picture is blurred, and 1 and 100 give the same bytes.
struct strength {
    float value;
    explicit constexpr strength(float s) noexcept : value(s) {}
};

// To the right, and down.
struct offset {
    float dx, dy;
};

// Not premultiplied, each component from 0 to 1.
struct colour {
    float red, green, blue, alpha;
};

// Whether a picture is laid over its shadow.
enum class composite : std::uint32_t { shadow_alone = 0, over_shadow = 1 };

// A place y * w + x. An output's is told from an input's.
struct output_place {
    std::uint64_t value;
    explicit constexpr output_place(std::uint64_t place) noexcept : value(place) {}
};
struct input_place {
    std::uint64_t value;
    explicit constexpr input_place(std::uint64_t place) noexcept : value(place) {}
};

// A box of pixels: wide columns from x on, high rows from y on.
struct region {
    std::uint32_t x, y, wide, high;
};

// What stands beside a picture in a plate of version 2 or 3.
struct label {
    corbelrush::unit unit;
    std::uint16_t sheet;
};

// ---- what is answered

// The number that a function returned; done, or why not.
class [[nodiscard]] status {
public:
    constexpr explicit status(std::uint32_t number) noexcept : number_(number) {}
    constexpr explicit operator bool() const noexcept { return number_ == CORBELRUSH_DONE; }
    constexpr std::uint32_t number() const noexcept { return number_; }
    const char *says() const noexcept { return corbelrush_says(number_); }

private:
    std::uint32_t number_;
};

// What a function answered, or why it did not.
template <class T> class [[nodiscard]] result : public status {
public:
    constexpr result(status why, T value) : status(why), value_(std::move(value)) {}
    // Of a call that was refused it is what the function left there: zeros, as corbelrush.h says.
    constexpr const T &operator*() const noexcept { return value_; }
    constexpr const T *operator->() const noexcept { return &value_; }

private:
    T value_;
};

// Where a picture of a plate lies.
struct plate_part {
    corbelrush::size size;
    std::uint64_t offset, length;
    // Its bytes in that plate.
    bytes in(bytes plate) const noexcept { return {plate.data() + offset, static_cast<std::size_t>(length)}; }
    const_bytes in(const_bytes plate) const noexcept { return {plate.data() + offset, static_cast<std::size_t>(length)}; }
};

// An image file that was written, or the first place that it was refused for as 16.
struct pam_written {
    std::uint64_t length, place;
};

// ---- kernels, checked when they are made

// 1 to 33 taps, held by value.
template <class T> class taps {
public:
    span<const T> values() const noexcept { return {values_.data(), count_}; }
    // Its row in the table of a list of recipes: zeros come after its taps.
    const std::array<T, CORBELRUSH_MAX_TAPS> &row() const noexcept { return values_; }

protected:
    void take(span<const T> given) noexcept
    {
        count_ = given.size();
        for (std::size_t i = 0; i < count_; i++) values_[i] = given[i];
    }

private:
    std::array<T, CORBELRUSH_MAX_TAPS> values_{};
    std::size_t count_ = 0;
};

// Weights from 0 to 1. They need not sum to 1: a sum above 1 whitens. spread is the check of that.
class kernel : public taps<float> {
public:
    // Refusals: 4, 5, by the library's own checks in a blur of one pixel that a strength of 0 leaves as it is.
    static result<kernel> make(span<const float> weights) noexcept
    {
        std::uint8_t picture[4] = {}, scratch[4] = {};
        const status why{corbelrush_blur(picture, 4, 1, 1, scratch, 4, weights.data(), weights.size(), 0, 0.0f, 0)};
        kernel made;
        if (why) made.take(weights);
        return {why, made};
    }
};

// Numerators over 65536, which sum to at most that.
class whole_kernel : public taps<std::uint32_t> {
public:
    // Refusals: 4, 14, by the library's own checks in a blur of one pixel.
    static result<whole_kernel> make(span<const std::uint32_t> numerators) noexcept
    {
        std::uint8_t picture[4] = {}, scratch[4] = {};
        const status why{
            corbelrush_blur_whole(picture, 4, 1, 1, scratch, 4, numerators.data(), numerators.size(), 0, 0)};
        whole_kernel made;
        if (why) made.take(numerators);
        return {why, made};
    }
};

struct blur_settings {
    kernel weights;
    decimations n;
    strength s;
    edge beyond;
};

struct whole_settings {
    whole_kernel numerators;
    decimations n;
    edge beyond;
};

struct shadow_settings {
    blur_settings blur;
    offset by;
    corbelrush::colour colour;
    corbelrush::composite composite;
};

template <class E> constexpr std::uint32_t number(E value) noexcept { return static_cast<std::uint32_t>(value); }

// ---- blur, shift and shadow, of a picture and of its four planes: all r, then all g, b and a

namespace by {

template <class F> status blur(F function, bytes picture, size s, bytes scratch, const blur_settings &how) noexcept
{
    const auto weights = how.weights.values();
    return status{function(picture.data(), picture.size(), s.w, s.h, scratch.data(), scratch.size(), weights.data(),
                           weights.size(), how.n.value, how.s.value, number(how.beyond))};
}

template <class F>
status shadow(F function, bytes picture, size s, bytes scratch, bytes copy, const shadow_settings &how) noexcept
{
    const auto weights = how.blur.weights.values();
    return status{function(picture.data(), picture.size(), s.w, s.h, scratch.data(), scratch.size(), copy.data(),
                           copy.size(), weights.data(), weights.size(), how.blur.n.value, number(how.blur.beyond),
                           how.by.dx, how.by.dy, how.blur.s.value, how.colour.red, how.colour.green, how.colour.blue,
                           how.colour.alpha, number(how.composite))};
}

template <class F> status convert(F function, const_bytes from, size s, bytes to) noexcept
{
    return status{function(from.data(), from.size(), s.w, s.h, to.data(), to.size())};
}

} // namespace by

inline status blur(bytes picture, size s, bytes scratch, const blur_settings &how) noexcept
{
    return by::blur(corbelrush_blur, picture, s, scratch, how);
}

inline status blur_planes(bytes planes, size s, bytes scratch, const blur_settings &how) noexcept
{
    return by::blur(corbelrush_blur_planes, planes, s, scratch, how);
}

inline status blur_whole(bytes picture, size s, bytes scratch, const whole_settings &how) noexcept
{
    const auto numerators = how.numerators.values();
    return status{corbelrush_blur_whole(picture.data(), picture.size(), s.w, s.h, scratch.data(), scratch.size(),
                                        numerators.data(), numerators.size(), how.n.value, number(how.beyond))};
}

inline status shift(bytes picture, size s, offset by) noexcept
{
    return status{corbelrush_shift(picture.data(), picture.size(), s.w, s.h, by.dx, by.dy)};
}

inline status shift_planes(bytes planes, size s, offset by) noexcept
{
    return status{corbelrush_shift_planes(planes.data(), planes.size(), s.w, s.h, by.dx, by.dy)};
}

inline status shadow(bytes picture, size s, bytes scratch, bytes copy, const shadow_settings &how) noexcept
{
    return by::shadow(corbelrush_shadow, picture, s, scratch, copy, how);
}

inline status shadow_planes(bytes planes, size s, bytes scratch, bytes copy, const shadow_settings &how) noexcept
{
    return by::shadow(corbelrush_shadow_planes, planes, s, scratch, copy, how);
}

inline status to_planes(const_bytes picture, size s, bytes planes) noexcept
{
    return by::convert(corbelrush_to_planes, picture, s, planes);
}

inline status from_planes(const_bytes planes, size s, bytes picture) noexcept
{
    return by::convert(corbelrush_from_planes, planes, s, picture);
}

// ---- lists of recipes

// The row of the table that a recipe's kernel stands in.
struct kernel_row {
    std::uint32_t value;
    explicit constexpr kernel_row(std::uint32_t row) noexcept : value(row) {}
};

inline corbelrush_recipe blur_recipe(kernel_row row, const blur_settings &how) noexcept
{
    corbelrush_recipe made = {};
    made.kernel = row.value;
    made.taps = static_cast<std::uint32_t>(how.weights.values().size());
    made.n = how.n.value;
    made.edge = number(how.beyond);
    made.strength = how.s.value;
    return made;
}

inline corbelrush_recipe shift_recipe(offset by) noexcept
{
    corbelrush_recipe made = {};
    made.operation = 1;
    made.dx = by.dx;
    made.dy = by.dy;
    return made;
}

inline corbelrush_recipe shadow_recipe(kernel_row row, const shadow_settings &how) noexcept
{
    corbelrush_recipe made = blur_recipe(row, how.blur);
    made.operation = 2;
    made.composite = number(how.composite);
    made.dx = how.by.dx;
    made.dy = how.by.dy;
    made.red = how.colour.red;
    made.green = how.colour.green;
    made.blue = how.colour.blue;
    made.alpha = how.colour.alpha;
    return made;
}

// The index of the first bad recipe. The table has CORBELRUSH_MAX_TAPS weights a kernel: kernel::row one after the other.
inline result<std::uint64_t> recipes(bytes picture, size s, bytes scratch, bytes copy, span<const corbelrush_recipe> list,
                                     span<const float> table) noexcept
{
    std::uint64_t index;
    const status why{corbelrush_recipes(picture.data(), picture.size(), s.w, s.h, scratch.data(), scratch.size(),
                                        copy.data(), copy.size(), list.data(), list.size(), table.data(), table.size(),
                                        &index)};
    return {why, index};
}

// ---- what graders ask

// The place of the first pixel of which r, g or b exceeds a, or none.
inline result<std::optional<std::uint64_t>> check(const_bytes picture, size s) noexcept
{
    std::uint32_t found;
    std::uint64_t place;
    const status why{corbelrush_check(picture.data(), picture.size(), s.w, s.h, &found, &place)};
    return {why, found ? std::optional<std::uint64_t>(place) : std::nullopt};
}

// How many first entries of the list say what was changed.
inline result<std::uint64_t> mend(bytes picture, size s, span<corbelrush_change> list) noexcept
{
    std::uint64_t count;
    const status why{
        corbelrush_mend(picture.data(), picture.size(), s.w, s.h, list.data(), list.size(), &count)};
    return {why, count};
}

inline status rebuild(bytes picture, size s, span<const corbelrush_change> list) noexcept
{
    return status{corbelrush_rebuild(picture.data(), picture.size(), s.w, s.h, list.data(), list.size())};
}

// The weight of one input in one output, over 2^(10n+32).
inline result<std::uint64_t> share(size s, const whole_settings &how, output_place out, input_place in) noexcept
{
    const auto numerators = how.numerators.values();
    std::uint64_t share;
    const status why{corbelrush_share(s.w, s.h, numerators.data(), numerators.size(), how.n.value, number(how.beyond),
                                      out.value, in.value, &share)};
    return {why, share};
}

// How many first entries of the list are the points that made an output.
inline result<std::uint64_t> shares(size s, const whole_settings &how, output_place out,
                                    span<corbelrush_point> list) noexcept
{
    const auto numerators = how.numerators.values();
    std::uint64_t points;
    const status why{corbelrush_shares(s.w, s.h, numerators.data(), numerators.size(), how.n.value, number(how.beyond),
                                       out.value, list.data(), list.size(), &points)};
    return {why, points};
}

// A picture that is read at any coordinates; one that is refused has four zeros everywhere.
class view {
public:
    view(const_bytes picture, size s, edge beyond) noexcept : picture_(picture), size_(s), edge_(beyond) {}

    // Whether the library reads it.
    status readable() const noexcept
    {
        return status{corbelrush_view(picture_.data(), picture_.size(), size_.w, size_.h, number(edge_))};
    }

    // r, g, b, a.
    std::array<std::uint8_t, 4> sample(std::int32_t x, std::int32_t y) const noexcept
    {
        const std::uint32_t p =
            corbelrush_sample(picture_.data(), picture_.size(), size_.w, size_.h, number(edge_), x, y);
        const auto byte = [p](int shift) { return static_cast<std::uint8_t>(p >> shift & 255); };
        return {byte(0), byte(8), byte(16), byte(24)};
    }

private:
    const_bytes picture_;
    size size_;
    edge edge_;
};

// The variance along an axis in units of 1/131072 of a square pixel; of weights that do not sum to 1 it is refused.
inline result<std::uint64_t> spread(span<const float> weights, decimations n) noexcept
{
    std::uint64_t spread;
    const status why{corbelrush_spread(weights.data(), weights.size(), n.value, &spread)};
    return {why, spread};
}

// ---- area sums

inline status area_build(const_bytes picture, size s, span<std::uint32_t> table) noexcept
{
    return status{corbelrush_area_build(picture.data(), picture.size(), s.w, s.h, table.data(), table.size())};
}

inline result<std::uint64_t> area_box(span<const std::uint32_t> table, size s, region box) noexcept
{
    std::uint64_t sum;
    const status why{
        corbelrush_area_box(table.data(), table.size(), s.w, s.h, box.x, box.y, box.wide, box.high, &sum)};
    return {why, sum};
}

// An alpha at a place, before and after.
struct alpha_change {
    std::uint64_t place;
    std::uint8_t before, after;
};

inline status area_update(span<std::uint32_t> table, size s, alpha_change change) noexcept
{
    return status{corbelrush_area_update(table.data(), table.size(), s.w, s.h, change.place, change.before, change.after)};
}

// ---- plates

inline result<plate_part> plate_picture(const_bytes plate, std::uint32_t index) noexcept
{
    plate_part part;
    const status why{corbelrush_plate_picture(plate.data(), plate.size(), index, &part.size.w, &part.size.h,
                                              &part.offset, &part.length)};
    return {why, part};
}

// A plate of version 1 has none.
inline result<std::optional<label>> plate_label(const_bytes plate, std::uint32_t index) noexcept
{
    std::uint32_t named;
    std::uint16_t sheet;
    const status why{corbelrush_plate_label(plate.data(), plate.size(), index, &named, &sheet)};
    if (named == 0) return {why, std::nullopt};
    return {why, label{static_cast<unit>(named), sheet}};
}

inline status plate_job(bytes plate, bytes scratch) noexcept
{
    return status{corbelrush_plate_job(plate.data(), plate.size(), scratch.data(), scratch.size())};
}

// The plate's length.
inline result<std::uint64_t> plate_start(bytes buffer, plate_version version) noexcept
{
    std::uint64_t used;
    const status why{corbelrush_plate_start(buffer.data(), buffer.size(), number(version), &used)};
    return {why, used};
}

// The plate's new length. A plate of version 1 ignores a label, one of version 2 or 3 without it is refused as 10.
inline result<std::uint64_t> plate_add(bytes buffer, std::uint64_t used, const_bytes picture, size s,
                                       std::optional<label> named) noexcept
{
    std::uint64_t new_used;
    const status why{corbelrush_plate_add(buffer.data(), buffer.size(), used, picture.data(), picture.size(), s.w, s.h,
                                          named ? number(named->unit) : 0, named ? named->sheet : std::uint16_t{0},
                                          &new_used)};
    return {why, new_used};
}

// ---- image files

inline result<size> pam_read(const_bytes file, bytes picture) noexcept
{
    size s;
    std::uint64_t written;
    const status why{
        corbelrush_pam_read(file.data(), file.size(), picture.data(), picture.size(), &s.w, &s.h, &written)};
    return {why, s};
}

inline result<pam_written> pam_write(const_bytes picture, size s, bytes file) noexcept
{
    pam_written answer;
    const status why{corbelrush_pam_write(picture.data(), picture.size(), s.w, s.h, file.data(), file.size(),
                                          &answer.length, &answer.place)};
    return {why, answer};
}

// ---- work buffers that grow to the largest picture and are kept

class worker {
public:
    status blur(bytes picture, size s, const blur_settings &how)
    {
        return corbelrush::blur(picture, s, room(scratch_, picture.size()), how);
    }

    status blur_whole(bytes picture, size s, const whole_settings &how)
    {
        return corbelrush::blur_whole(picture, s, room(scratch_, picture.size()), how);
    }

    status shadow(bytes picture, size s, const shadow_settings &how)
    {
        return corbelrush::shadow(picture, s, room(scratch_, picture.size()), room(copy_, picture.size()), how);
    }

    status blur_planes(bytes planes, size s, const blur_settings &how)
    {
        return corbelrush::blur_planes(planes, s, room(scratch_, planes.size()), how);
    }

    status shadow_planes(bytes planes, size s, const shadow_settings &how)
    {
        return corbelrush::shadow_planes(planes, s, room(scratch_, planes.size()), room(copy_, planes.size()), how);
    }

    result<std::uint64_t> recipes(bytes picture, size s, span<const corbelrush_recipe> list, span<const float> table)
    {
        return corbelrush::recipes(picture, s, room(scratch_, picture.size()), room(copy_, picture.size()), list, table);
    }

    status plate_job(bytes plate) { return corbelrush::plate_job(plate, room(scratch_, plate.size())); }

private:
    static bytes room(std::vector<std::uint8_t> &buffer, std::size_t length)
    {
        if (buffer.size() < length) buffer.resize(length);
        return buffer;
    }

    std::vector<std::uint8_t> scratch_, copy_;
};

} // namespace corbelrush

#endif

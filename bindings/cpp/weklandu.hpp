// The machine of libweklandu for C++: handles that close themselves, and refusals as exceptions. The functions of weklandu.h take a machine
// and a frame of these as they are: wk_commit(machine, client, device, context).
#ifndef WEKLANDU_HPP
#define WEKLANDU_HPP

#include "weklandu.h"

#include <cstdint>
#include <new>
#include <stdexcept>
#include <string>
#include <utility>
#include <vector>

namespace weklandu {

// A call was refused.
struct refused : std::runtime_error {
    explicit refused(wk_told told)
        : std::runtime_error("code " + std::to_string(told.code) + ", value " + std::to_string(told.value)), told(told) {}
    wk_told told;
};

// Returns the value of an answer, or throws.
inline std::uint32_t need(wk_told told) {
    if (told.code != WK_OK) throw refused(told);
    return told.value;
}

// A handle that is closed where it ends, and can be moved, not copied.
template <class Handle>
class open_handle {
public:
    open_handle(const open_handle &) = delete;
    open_handle &operator=(const open_handle &) = delete;
    open_handle(open_handle &&other) noexcept : own(std::exchange(other.own, Handle{})) {}
    open_handle &operator=(open_handle &&other) noexcept {
        std::swap(own, other.own);
        return *this;
    }
    ~open_handle() { wk_close(&own); }
    operator Handle *() { return &own; }

protected:
    open_handle() = default;
    static void opened(std::uint8_t code) {
        if (code == WK_OUT_OF_MEMORY) throw std::bad_alloc();
        if (code != WK_OK) throw refused({code, 0});
    }
    Handle own{};
};

// A machine with ports, by their modes, and pipelines.
class machine : public open_handle<wk_machine> {
public:
    machine(std::uint32_t ports, const std::vector<wk_mode> &modes, std::uint32_t pipes = 0) {
        const wk_mode none{};
        opened(wk_open(&own, ports, modes.empty() ? &none : modes.data(), modes.size(), pipes));
    }
};

// A place for one frame after another.
class frame : public open_handle<wk_frame> {
public:
    frame() { opened(wk_frame_open(&own)); }

    // The picture, row by row without a gap; empty where no frame stands here.
    std::vector<std::uint8_t> read(wk_order order = WK_RGBA) {
        const wk_extent extent = wk_frame_extent(&own);
        std::vector<std::uint8_t> out(std::size_t{4} * extent.w * extent.h);
        if (out.empty() || wk_read_frame(&own, out.data(), out.size(), std::size_t{4} * extent.w, order) != WK_OK) return {};
        return out;
    }
};

}  // namespace weklandu

#endif

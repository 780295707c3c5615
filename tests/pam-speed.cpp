/* How long image files take beside OpenCV's conversions between straight and premultiplied colour: `pam-speed SIDE ROUNDS`.
 * One thread each, in one process, the four calls in turn, under random alphas and opaque; medians in milliseconds of processor time. */
#include <algorithm>
#include <cstdint>
#include <cstdio>
#include <cstdlib>
#include <ctime>
#include <functional>
#include <opencv2/imgproc.hpp>
#include <vector>

#include "corbelrush.h"

static uint32_t next(uint64_t &state) {
    state = state * 6364136223846793005u + 1442695040888963407u;
    return static_cast<uint32_t>(state >> 33);
}

static double milliseconds(const std::function<void()> &call) {
    std::clock_t start = std::clock();
    call();
    return 1000.0 * static_cast<double>(std::clock() - start) / CLOCKS_PER_SEC;
}

static void expect(uint32_t refused) {
    if (refused != 0) std::exit(static_cast<int>(refused));
}

static void compare(const char *name, bool opaque, int side, int rounds) {
    cv::Mat picture(side, side, CV_8UC4), straight(side, side, CV_8UC4), to(side, side, CV_8UC4);
    size_t bytes = picture.total() * 4;
    uint64_t state = 1, written, place;
    uint32_t w, h, sides = static_cast<uint32_t>(side);
    for (size_t i = 0; i < bytes; i += 4) {
        uint32_t alpha = opaque ? 255 : next(state) % 256;
        for (size_t c = 0; c < 3; c++) picture.data[i + c] = static_cast<uint8_t>(next(state) % (alpha + 1));
        picture.data[i + 3] = static_cast<uint8_t>(alpha);
    }
    std::vector<uint8_t> file(bytes + 80), back(bytes);
    expect(corbelrush_pam_write(picture.data, bytes, sides, sides, file.data(), file.size(), &written, &place));
    size_t length = written;
    std::copy(file.data() + (length - bytes), file.data() + length, straight.data);

    std::function<void()> calls[] = {
        [&] { expect(corbelrush_pam_write(picture.data, bytes, sides, sides, file.data(), file.size(), &written, &place)); },
        [&] { cv::cvtColor(picture, to, cv::COLOR_mRGBA2RGBA); },
        [&] { expect(corbelrush_pam_read(file.data(), length, back.data(), bytes, &w, &h, &written)); },
        [&] { cv::cvtColor(straight, to, cv::COLOR_RGBA2mRGBA); },
    };
    std::vector<double> times[4];
    for (int round = 0; round <= rounds; round++)
        for (int k = 0; k < 4; k++) {
            double t = milliseconds(calls[k]);
            if (round > 0) times[k].push_back(t); /* the first touches the memory */
        }
    for (auto &t : times) std::nth_element(t.begin(), t.begin() + rounds / 2, t.end());
    auto median = [&](int k) { return times[k][static_cast<size_t>(rounds / 2)]; };
    std::printf("%s: outward %.1f beside %.1f, %.2f; inward %.1f beside %.1f, %.2f\n", name, median(0), median(1),
                median(0) / median(1), median(2), median(3), median(2) / median(3));
}

int main(int count, char **words) {
    int side = count > 1 ? std::atoi(words[1]) : 4096, rounds = count > 2 ? std::atoi(words[2]) : 21;
    cv::setNumThreads(1);
    compare("random alphas", false, side, rounds);
    compare("opaque", true, side, rounds);
}

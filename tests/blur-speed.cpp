/* How long a blur without decimation takes beside OpenCV's separable filter in binary32: `blur-speed SIDE ROUNDS`.
 * One thread each, in one process, the two calls in turn, under Duplicate; medians in milliseconds of processor time. Of each
 * number of taps there are two kernels: one that is not symmetrical, and one that is, for which OpenCV has quicker code. Its
 * sum is a little less than 1: where it is 1, OpenCV takes weights of 8 bits, and is no filter in binary32. */
#include <algorithm>
#include <cstdint>
#include <cstdio>
#include <cstdlib>
#include <ctime>
#include <opencv2/imgproc.hpp>
#include <vector>

#include "corbelrush.h"

static double since(std::clock_t start) { return 1000.0 * static_cast<double>(std::clock() - start) / CLOCKS_PER_SEC; }

static double median(std::vector<double> &times) {
    std::sort(times.begin(), times.end());
    return times[times.size() / 2];
}

static std::vector<float> kernel(int taps, bool symmetrical) {
    std::vector<float> weights(static_cast<size_t>(taps));
    float sum = 0;
    for (int j = 0; j < taps; j++) {
        float steep = static_cast<float>(j % 5) + 0.01f * static_cast<float>(j), bell = static_cast<float>(std::min(j, taps - 1 - j));
        sum += weights[static_cast<size_t>(j)] = 1.0f + (symmetrical ? bell : steep);
    }
    for (float &weight : weights) weight *= (symmetrical ? 0.98f : 1.0f) / sum;
    return weights;
}

static void compare(int taps, bool symmetrical, cv::Mat &picture, int rounds) {
    std::vector<float> weights = kernel(taps, symmetrical);
    cv::Mat row(1, taps, CV_32F, weights.data());
    size_t bytes = picture.total() * 4;
    std::vector<uint8_t> ours(bytes), scratch(bytes), room(bytes);
    cv::Mat theirs(picture.rows, picture.cols, CV_8UC4, room.data());
    std::vector<double> us, them;
    uint32_t side = static_cast<uint32_t>(picture.rows);
    for (int i = 0; i < rounds; i++) {
        std::copy(picture.data, picture.data + bytes, ours.begin());
        std::clock_t start = std::clock();
        if (corbelrush_blur(ours.data(), bytes, side, side, scratch.data(), bytes, weights.data(), weights.size(), 0, 1, CORBELRUSH_DUPLICATE)) std::exit(1);
        us.push_back(since(start));
        start = std::clock();
        cv::sepFilter2D(picture, theirs, -1, row, row, cv::Point(-1, -1), 0, cv::BORDER_REPLICATE);
        them.push_back(since(start));
    }
    int apart = 0;
    for (size_t i = 0; i < bytes; i++) apart = std::max(apart, std::abs(ours[i] - theirs.data[i]));
    double mine = median(us), other = median(them);
    std::printf("%d taps%s: library %.1f, OpenCV %.1f, ratio %.2f; at most %d apart\n", taps, symmetrical ? ", symmetrical" : "", mine, other, mine / other, apart);
}

int main(int count, char **words) {
    int side = count > 1 ? std::atoi(words[1]) : 4096, rounds = count > 2 ? std::atoi(words[2]) : 21;
    cv::setNumThreads(1);
    std::vector<uint8_t> bytes(static_cast<size_t>(side) * static_cast<size_t>(side) * 4);
    cv::Mat picture(side, side, CV_8UC4, bytes.data());
    cv::randu(picture, 0, 256);
    for (bool symmetrical : {false, true})
        for (int taps : {5, 13, 33}) compare(taps, symmetrical, picture, rounds);
}

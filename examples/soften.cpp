// soften IN OUT: a PAM file, blurred by 1, 4, 6, 4, 1 over 16 with one decimation, written as a PAM file.
#include <corbelrush.hpp>
#include <fstream>
#include <iostream>
#include <iterator>
#include <vector>

namespace cr = corbelrush;

template <class Answer> void must(const char *what, const Answer &answer)
{
    if (answer) return;
    std::cerr << what << ": refused " << answer.number() << ": " << answer.says() << '\n';
    std::exit(1);
}

int main(int count, char **names)
{
    if (count != 3) return std::cerr << "usage: soften IN OUT\n", 2;
    std::ifstream in(names[1], std::ios::binary);
    std::vector<std::uint8_t> file{std::istreambuf_iterator<char>(in), {}}, picture(file.size());
    const auto size = cr::pam_read(file, picture);
    must("read", size);
    picture.resize(size->length());
    const auto weights = cr::kernel::make(std::array{1 / 16.0f, 4 / 16.0f, 6 / 16.0f, 4 / 16.0f, 1 / 16.0f});
    cr::worker worker;
    must("blur", worker.blur(picture, *size, {*weights, cr::decimations{1}, cr::strength{1}, cr::edge::duplicate}));
    file.resize(picture.size() + CORBELRUSH_PAM_HEADER);
    const auto written = cr::pam_write(picture, *size, file);
    must("write", written);
    std::ofstream out(names[2], std::ios::binary);
    out.write(reinterpret_cast<const char *>(file.data()), static_cast<std::streamsize>(written->length));
    return out.flush() ? 0 : 3;
}

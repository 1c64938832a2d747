// The pass by OpenCV: a byte a pixel, 0 or 255, with the vector instructions that OpenCV finds; one thread.
//
// A translate is of one colour where erosion and dilation by its element agree; outside the image one sees white and the
// other black, so a translate that is not all inside never counts. As in the limit, one plane `opened` serves both colours and
// the elements are one program.
#include <opencv2/imgproc.hpp>
#include <vector>

#include "elements.h"
#include "version.h"

namespace {

// An element as a kernel, anchored at one of its own positions: a translate in the image may have its centre outside.
struct Kernel {
    cv::Mat shape;
    cv::Point anchor;
};

struct Filter {
    int width, height;
    std::vector<Kernel> persistent, reflected;
    element_program elements;
    std::vector<cv::Mat> slots;
    cv::Mat facing[25], image, black, white, alike, spread, opened, wide_image, wide_opened, both;
};
Filter filter;

Kernel kernel_of(uint32_t mask) {
    std::vector<cv::Point> points;
    for (int n = 0; n < 25; n++)
        if (mask >> n & 1) points.push_back({n % 5, n / 5});
    cv::Rect box = cv::boundingRect(points);
    Kernel kernel = {cv::Mat::zeros(box.size(), CV_8U), points[0] - box.tl()};
    for (cv::Point point : points) kernel.shape.at<uchar>(point - box.tl()) = 1;
    return kernel;
}

// cv::dilate does not reflect its kernel.
Kernel reflect(const Kernel &kernel) {
    Kernel other = {{}, cv::Point(kernel.shape.cols - 1, kernel.shape.rows - 1) - kernel.anchor};
    cv::flip(kernel.shape, other.shape, -1);
    return other;
}

void make(const mask_table *table, size_t width, size_t height) {
    cv::setNumThreads(1);
    filter = Filter();
    filter.width = width, filter.height = height;
    for (size_t r = 0; r < table->ranks; r++) {
        filter.persistent.push_back(kernel_of(table->persistents[r]));
        filter.reflected.push_back(reflect(filter.persistent[r]));
    }
    compile_elements(table, &filter.elements);
    filter.slots.resize(filter.elements.slots);
}

void load(const uint8_t *image) {
    cv::Mat(filter.height, filter.width, CV_8U, const_cast<uint8_t *>(image)).convertTo(filter.image, CV_8U, 255);
}

void store(uint8_t *image) {
    cv::Mat bytes(filter.height, filter.width, CV_8U, image);
    cv::bitwise_and(filter.image, cv::Scalar(1), bytes);
}

void open() {
    for (size_t r = 0; r < filter.persistent.size(); r++) {
        const Kernel &kernel = filter.persistent[r], &back = filter.reflected[r];
        cv::erode(filter.image, filter.black, kernel.shape, kernel.anchor, 1, cv::BORDER_CONSTANT, cv::Scalar(0));
        cv::dilate(filter.image, filter.white, kernel.shape, kernel.anchor, 1, cv::BORDER_CONSTANT, cv::Scalar(255));
        cv::compare(filter.black, filter.white, filter.alike, cv::CMP_EQ);
        cv::Mat &spread = r ? filter.spread : filter.opened;
        cv::dilate(filter.alike, spread, back.shape, back.anchor, 1, cv::BORDER_CONSTANT, cv::Scalar(0));
        if (r) cv::bitwise_or(filter.opened, spread, filter.opened);
    }
}

// Where the pixel faces an opened one of the other colour, for every position in use.
void face() {
    cv::copyMakeBorder(filter.opened, filter.wide_opened, 2, 2, 2, 2, cv::BORDER_REPLICATE);
    cv::copyMakeBorder(filter.image, filter.wide_image, 2, 2, 2, 2, cv::BORDER_REPLICATE);
    uint32_t done = 0;
    for (int n = 0; n < filter.elements.count; n++) {
        int position = filter.elements.nodes[n].position;
        if (done >> position & 1) continue;
        done |= 1u << position;
        cv::Rect there(position % 5, position / 5, filter.width, filter.height);
        cv::bitwise_xor(filter.wide_image(there), filter.image, filter.facing[position]);
        cv::bitwise_and(filter.wide_opened(there), filter.facing[position], filter.facing[position]);
    }
}

cv::Mat &value(int n) {
    const element_node &node = filter.elements.nodes[n];
    return node.slot == NO_SLOT ? filter.facing[node.position] : filter.slots[node.slot];
}

cv::Mat &judge() {
    for (int n = 0; n < filter.elements.count; n++) {
        const element_node &node = filter.elements.nodes[n];
        const cv::Mat &here = filter.facing[node.position];
        if (node.slot == NO_SLOT) continue;
        cv::Mat &out = filter.slots[node.slot];
        if (node.without == NEVER) cv::bitwise_and(here, value(node.with), out);
        else if (node.with == ALWAYS) cv::bitwise_or(value(node.without), here, out);
        else {
            cv::bitwise_and(here, value(node.with), filter.both);
            cv::bitwise_or(value(node.without), filter.both, out);
        }
    }
    return value(filter.elements.count - 1);
}

size_t pass() {
    open();
    face();
    cv::Mat &changes = judge();
    cv::bitwise_xor(filter.image, changes, filter.image);
    return cv::countNonZero(changes) != 0;
}

size_t run() {
    size_t passes = 0;
    while (pass()) passes++;
    return passes;
}

}

extern "C" const version opencv_version = {"OpenCV", make, load, pass, run, store, nullptr};

/* The library called from C: one book priced, one call refused. */

#include <stddef.h>
#include <stdint.h>
#include <stdio.h>
#include <string.h>

uint32_t snap_price_image(const uint8_t *image, size_t image_len, uint32_t last_sale,
                          uint8_t *out, size_t out_len);

/* 100 shares bought at 200,200 and 100 sold at 200,000; no quotes. */
static const uint8_t image[] = {
    1, 0, 0, 0, 1, 0, 0, 0, 0, 0, 0, 0, 0, 0, 0, 0, /* sizes */
    0x08, 0x0e, 0x03, 0, 0x40, 0x0d, 0x03, 0,       /* prices */
    100, 0, 0, 0, 100, 0, 0, 0,                     /* shares */
};

/* Price 200,100, cause 0, count 100: all bytes of an output. */
static const uint8_t expected[] = {0xa4, 0x0d, 0x03, 0, 0, 0, 0, 0, 100, 0, 0, 0, 0, 0, 0, 0};

static int is_priced(void)
{
    uint8_t out[sizeof expected];
    memset(out, 0xa5, sizeof out);
    uint32_t returned = snap_price_image(image, sizeof image, 200100, out, sizeof out);
    return returned == 0 && memcmp(out, expected, sizeof out) == 0;
}

/* No image at all. */
static const uint8_t no_image[8] = {'n', 'o', ' ', 'i', 'm', 'a', 'g', 'e'};

/* An output that is a byte too short is refused and left alone, whatever the image: the first refusal wins. */
static int is_refused(void)
{
    uint8_t out[sizeof expected], before[sizeof expected];
    memset(out, 0xa5, sizeof out);
    memcpy(before, out, sizeof out);
    uint32_t returned = snap_price_image(image, sizeof image, 200100, out, sizeof out - 1);
    uint32_t first = snap_price_image(no_image, sizeof no_image, 0, out, sizeof out - 1);
    return returned == 24 && first == 24 && memcmp(out, before, sizeof out) == 0;
}

int main(void)
{
    int priced = is_priced(), refused = is_refused();
    printf("from C: book %s, short output %s\n", priced ? "priced" : "NOT priced as expected",
           refused ? "refused" : "NOT refused as expected");
    return priced && refused ? 0 : 1;
}

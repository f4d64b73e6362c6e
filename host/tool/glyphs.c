#include "glyphs.h"

#define BANDS 3
#define IN_A_BAND 13

static const char order[] = "0123456789:, "
                            "abcdefghijklm"
                            "nopqrstuvwxyz";

static const char *const bands[BANDS][GLYPH_HEIGHT] = {
    {
        " ###    #    ###   ###     #  #####  ###  #####  ###   ###                    ",
        "#   #  ##   #   # #   #   ##  #     #         # #   # #   #                   ",
        "#   #   #       #     #  # #  ####  #        #  #   # #   #  ##               ",
        "#   #   #      #    ##  #  #      # ####     #   ###   ####  ##               ",
        "#   #   #     #       # #####     # #   #   #   #   #     #                   ",
        "#   #   #    #    #   #    #  #   # #   #   #   #   #     #  ##    ##         ",
        " ###   ###  #####  ###     #   ###   ###    #    ###   ###   ##    ##         ",
        "                                                                    #         ",
        "                                                                   #          ",
    },
    {
        "      #               #         ##        #       #      #  #      ##         ",
        "      #               #        #          #                 #       #         ",
        " ###  ####   ###   ####  ###  ####   #### ####   ##     ##  #  #    #   ## #  ",
        "    # #   # #   # #   # #   #  #    #   # #   #   #      #  # #     #   # # # ",
        " #### #   # #     #   # #####  #    #   # #   #   #      #  ##      #   # # # ",
        "#   # #   # #   # #   # #      #    #   # #   #   #      #  # #     #   # # # ",
        " #### ####   ###   ####  ###   #     #### #   #  ###     #  #  #   ###  # # # ",
        "                                        #             #  #                    ",
        "                                     ###               ##                     ",
    },
    {
        "                                     #                                        ",
        "                                     #                                        ",
        "####   ###  ####   #### # ##   #### ####  #   # #   # #   # #   # #   # ##### ",
        "#   # #   # #   # #   # ##  # #      #    #   # #   # #   #  # #  #   #    #  ",
        "#   # #   # #   # #   # #      ###   #    #   # #   # # # #   #   #   #   #   ",
        "#   # #   # #   # #   # #         #  #    #   #  # #  # # #  # #  #   #  #    ",
        "#   #  ###  ####   #### #     ####    ##   ####   #    # #  #   #  #### ##### ",
        "            #         #                                               #       ",
        "            #         #                                            ###        ",
    },
};

_Static_assert(sizeof order - 1 == BANDS * IN_A_BAND, "every letter stands in a band");

int glyph_dot(char letter, uint64_t x, uint64_t y)
{
    uint64_t place = 0;
    while (order[place] && order[place] != letter) place++;
    return order[place] && bands[place / IN_A_BAND][y][place % IN_A_BAND * GLYPH_WIDTH + x] == '#';
}

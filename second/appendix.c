/* Appendix 7-A of IRIG 106-23 Chapter 7: the C code of A.2, A.3 and A.4 as printed,
 * and a summary of what it computes, as numbers that another program can repeat.
 *
 * Make second/vectors.expected again:
 *     second/build && target/second/appendix > second/vectors.expected
 */
#include <stdint.h>

/* ---- A.2, as printed ---- */

#define GOLAY_SIZE      0x1000

// Generator matrix : parity sub-generator matrix P :

uint16_t G_P[12] = {
    0xc75, 0x63b, 0xf68, 0x7b4,
    0x3da, 0xd99, 0x6cd, 0x367,
    0xdc6, 0xa97, 0x93e, 0x8eb
};

uint32_t      EncodeTable[ GOLAY_SIZE ];      // Golay encoding table

// encode a 12-bit word to a 24-bit Golay code word
#define Encode(v) EncodeTable[v&0xffff]

// initialize the Golay encoding lookup table
void InitGolayEncode( void )
{
    for( uint32_t x=0; x < GOLAY_SIZE; x++ ) {
        // generate encode LUT
        EncodeTable[x]=(x<<12);
        for( uint32_t i=0; i<12; i++ ) {
            if( (x>>(11-i)) & 1 )
                EncodeTable[x] ^= G_P[i];
        }
    }
}

/* ---- A.3, as printed ---- */

uint16_t SyndromeTable[ GOLAY_SIZE ];    // Syndrome table
uint16_t CorrectTable[ GOLAY_SIZE ];     // correction table
uint8_t  ErrorTable[ GOLAY_SIZE ];       // number of error bits table

#define Syndrome2(v1,v2)      (SyndromeTable[v2]^(v1))
#define Syndrome(v)          Syndrome2(((v)>>12)&0xfff,(v)&0xfff)
#define Errors2(v1,v2)       ErrorTable[Syndrome2(v1,v2)]
#define Decode2(v1,v2)       ((v1)^CorrectTable[Syndrome2(v1,v2)])

// get the number of error bits in this 24-bit code word
#define Errors(v)             Errors2(((v)>>12)&0xfff,(v)&0xfff)

// get the 12-bit corrected code from a 24-bit code word
#define Decode(v)             Decode2(((v)>>12)&0xfff,(v)&0xfff)

// Parity Check matrix
uint16_t H_P[12] = {
    0xa4f, 0xf68, 0x7b4, 0x3da,
    0x1ed, 0xab9, 0xf13, 0xdc6,
    0x6e3, 0x93e, 0x49f, 0xc75
};

// calculate the number of 1s in a 24-bit word
uint8_t OnesInCode( uint32_t code, uint32_t size )
{
    uint8_t ret = 0;
    for( uint32_t i=0; i<size; i++ ) {
        if( (code>>i) & 1 )
            ret++;
    }
    return ret;
}

void InitGolayDecode( void )
{
    for( uint32_t x=0; x < GOLAY_SIZE; x++ ) {
        // generate syndrome LUT
        SyndromeTable[x]=0;          // Default value of the Syndrome LUT
        for( uint32_t i=0; i<12; i++ ) {
            if( (x>>(11-i)) & 1 ) SyndromeTable[x] ^= H_P[i];
            ErrorTable[x] = 4;
            CorrectTable[x]=0xffff;
        }
    }

    // no error case
    ErrorTable[0] = 0;
    CorrectTable[0]= 0;
    // generate all error codes up to 3 ones
    for( int i=0; i<24; i++ ) {
        for( int j=0; j<24; j++ ) {
            for( int k=0; k<24; k++ ) {
                uint32_t error = (1<<i) | (1<<j) | (1<<k);
                uint32_t syndrome = Syndrome(error);
                CorrectTable[syndrome] = (error>>12) & 0xffff;
                ErrorTable[syndrome] = OnesInCode(error,24);
            }
        }
    }
}

/* ---- A.4, as printed ---- */

#define    BYTE_LUT_SIZE    0x100

uint8_t Decode00FFTable[ BYTE_LUT_SIZE ]; // decode 0x00 or 0xff (8,1,3)
uint8_t Error00FFTable[ BYTE_LUT_SIZE ]; // number of error bits (8,1,3)

#define Decode00FF(v)    Decode00FFTable[v]
#define Error00FF(v)    Error00FFTable[v]

void InitGolay00FFDecode ( void )
{
    // generate (8,1,3) tables
    for( uint32_t i=0; i<BYTE_LUT_SIZE; i++ ) {
        uint32_t j = OnesInCode(i,8);
        Decode00FFTable[i] = j <= 4 ? 0 : 0xff;
        Error00FFTable[i] = j <= 4 ? j : 8-j;
    }
}

/* ---- what summary.h asks for ---- */

static uint32_t code_word(uint32_t number) { return Encode(number); }
static uint32_t flips_of(uint32_t word) { return Errors(word); }
static uint32_t number_of(uint32_t word) { return Decode(word); }

static uint32_t end_value(uint32_t byte)
{
    /* four flips: A.4 reads 00, the stricter rule calls it beyond repair */
    return Error00FF(byte) == 4 ? 256 : Decode00FF(byte);
}

#include "summary.h"

int main(void)
{
    InitGolayEncode();
    InitGolayDecode();
    InitGolay00FFDecode();
    print_summary();
    return 0;
}

import java.util.ArrayList;
import java.util.List;

/** Where the arguments come from, for both Vectors and Stream: the places of e_exp.c and e_log.c where something changes,
 *  arguments whose root is hard to round, and a generator of random numbers that is the same under every Java. */
final class Arguments {
    private Arguments() {}

    /** SplitMix64, written out so that a seed means the same numbers in every version of Java. */
    static final class Draw {
        private long state;

        Draw(long seed) { state = seed; }

        long bits() {
            state += 0x9E3779B97F4A7C15L;
            long z = state;
            z = (z ^ (z >>> 30)) * 0xBF58476D1CE4E5B9L;
            z = (z ^ (z >>> 27)) * 0x94D049BB133111EBL;
            return z ^ (z >>> 31);
        }

        /** At least 0 and below n. */
        int below(int n) { return (int) Long.remainderUnsigned(bits(), n); }

        /** At least 0 and below 1, a multiple of 2^-53. */
        double unit() { return (bits() >>> 11) * 0x1p-53; }
    }

    static final long SIGN = 1L << 63;
    static final long FRACTION = (1L << 52) - 1;
    static final double HALF_LN2 = 0.34657359027997264;

    /** Zeros, infinities, NaNs quiet and signalling, the ends of the number ranges, and some plain numbers. */
    static final long[] SPECIAL = {
        0x0000000000000000L, 0x8000000000000000L, 0x7ff0000000000000L, 0xfff0000000000000L,
        0x7ff8000000000000L, 0xfff8000000000000L, 0x7ff8000000000123L, 0xfff8000000000123L,
        0x7fffffffffffffffL, 0xffffffffffffffffL, 0x7ff0000000000001L, 0xfff0000000000001L,
        0x7ff0000100000000L, 0xfff0000100000000L, 0x7ff7ffffffffffffL, 0xfff7ffffffffffffL,
        0x0000000000000001L, 0x8000000000000001L, 0x000fffffffffffffL, 0x800fffffffffffffL,
        0x0010000000000000L, 0x8010000000000000L, 0x7fefffffffffffffL, 0xffefffffffffffffL,
        0x3ff0000000000000L, 0xbff0000000000000L, 0x4000000000000000L, 0xc000000000000000L,
        0x3fe0000000000000L, 0xbfe0000000000000L, 0x4008000000000000L, 0x4010000000000000L,
        0x4005bf0a8b145769L, 0x4024000000000000L, 0x3fb999999999999aL, 0x400921fb54442d18L,
    };

    /** Sizes at which e_exp.c takes another branch, or its result leaves the normal numbers or all numbers. */
    static final long[] EXP_EDGES = {
        0x40862e4200000000L, // the high word from which the argument is tested further
        0x40862e42fefa39efL, // 709.782712893383973096, the last argument below overflow
        0x40874910d52d3051L, // 745.13321910194110842, the last size below underflow
        0x7ff0000000000000L, // infinity, and NaN beyond it
        0x3fd62e4200000000L, // the high word up to which nothing is reduced: ln2 / 2
        0x3fd62e4300000000L, // the first size past it
        0x3fd62e42fefa39efL, // ln2 / 2 itself
        0x3ff0a2b200000000L, // the high word from which k is worked out: 3 ln2 / 2
        0x3ff0a2b300000000L,
        0x3ff0a2b23f3bab73L, // 3 ln2 / 2 itself
        0x3e30000000000000L, // 2^-28, below which the answer is 1 + x
        0x3fe62e42fee00000L, // the high part of ln2
        0x3fe62e42fefa39efL, // ln2
        0x4086232bdd7abcd2L, // 1022 ln2: the result of minus this is the smallest normal number
        0x40874385446d71c3L, // 1074 ln2: the result of minus this is the smallest number
    };

    /** The top 20 digits of the fraction at which e_log.c takes another branch: the window of 2^-20 around a power of two
     *  (0xffffe up to 0x00000), the polynomial's two forms (0x6147a up to 0x6b851), and the halving of x (from 0x6a09c). */
    static final int[] LOG_EDGES = {0x00000, 0x00001, 0xffffe, 0x6147a, 0x6b852, 0x6a09c};

    /** The smallest size whose k in e_exp.c, the rounded quotient by ln2, is this one. k grows with the size, so halving
     *  the interval finds it. */
    static long firstSizeOf(int k) {
        long below = Double.doubleToRawLongBits(1.0);
        long at = Double.doubleToRawLongBits(1000.0);
        while (at - below > 1) {
            long middle = below + (at - below) / 2;
            int there = (int) (1.44269504088896338700 * Double.longBitsToDouble(middle) + 0.5);
            if (there < k) below = middle; else at = middle;
        }
        return at;
    }

    /** Arguments whose root lies as close as can be to the middle of two neighbours r and r + 1 (in units of the last place,
     *  r having 53 digits): m 2^52 = r (r + 1) - c for a small even c, found digit by digit from the right, since
     *  r (r + 1) - c changes by an odd multiple of 2^i with the digit 2^i of r. Of m only numbers of 53 digits are taken. */
    static List<Double> halfway(long c, int scale) {
        List<Double> found = new ArrayList<>();
        for (int digits = 52; digits <= 53; digits++) {
            for (long last = 0; last <= 1; last++) {
                long r = last;
                for (int i = 1; i < digits; i++) if (((r * (r + 1) - c) >>> i & 1) != 0) r += 1L << i;
                if (r < 1L << 52) r += 1L << 52;
                if (((r * (r + 1) - c) & ((1L << digits) - 1)) != 0) continue;
                long m = quotient(r, c);
                if (m < 1L << 53 || (m < 1L << 54 && m % 2 == 0)) found.add(Math.scalb((double) m, 52 + 2 * scale));
            }
        }
        return found;
    }

    /** (r (r + 1) - c) / 2^52, by both halves of the product. */
    private static long quotient(long r, long c) {
        long low = r * (r + 1);
        long high = Math.multiplyHigh(r, r + 1);
        long less = low - c;
        if (c > 0 && Long.compareUnsigned(less, low) > 0) high--;
        if (c < 0 && Long.compareUnsigned(less, low) < 0) high++;
        return high << 12 | less >>> 52;
    }

    /** The product of two neighbours of 53 random digits, rounded: its root is near the middle of the two. */
    static double product(Draw draw, int scale) {
        double r = Double.longBitsToDouble((draw.bits() & FRACTION) | 1023L << 52);
        return Math.scalb(r * Math.nextUp(r), scale);
    }

    /** The square of a random number of up to 26 digits, exact, times 4^scale. */
    static double square(Draw draw, int scale) {
        double n = 1 + draw.below(1 << (1 + draw.below(26)));
        return Math.scalb(n * n, 2 * scale);
    }
}

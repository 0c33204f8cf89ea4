// A prototype of the library's EM, for judging starts: the same steps, one AR block, sums in another order. em.py compiles and
// calls it. Parameters are one row x: the transition table, k means, p AR coefficients, one variance or k. A window's label now
// is its number mod k, the label before (number / k) mod k, and so on. T readings, n = T - p rows, m = k^(p+1) windows.
#include <math.h>
#include <stdlib.h>
#include <string.h>

#define LN_2PI 1.8378770664093453

typedef struct {
    int k, p, sv;
    double P[256], mu[16], ar[8], v[16];
} Par;

// Gaussian elimination; 1 where a pivot is not above 1e-300. b becomes the solution.
static int solve(double *a, double *b, int n) {
    for (int c = 0; c < n; c++) {
        int q = c;
        for (int r = c + 1; r < n; r++)
            if (fabs(a[r * n + c]) > fabs(a[q * n + c])) q = r;
        if (!(fabs(a[q * n + c]) > 1e-300)) return 1;
        if (q != c) {
            for (int j = 0; j < n; j++) {
                double t = a[q * n + j];
                a[q * n + j] = a[c * n + j];
                a[c * n + j] = t;
            }
            double t = b[q];
            b[q] = b[c];
            b[c] = t;
        }
        for (int r = c + 1; r < n; r++) {
            double f = a[r * n + c] / a[c * n + c];
            if (f == 0) continue;
            for (int j = c; j < n; j++) a[r * n + j] -= f * a[c * n + j];
            b[r] -= f * b[c];
        }
    }
    for (int c = n - 1; c >= 0; c--) {
        double s = b[c];
        for (int j = c + 1; j < n; j++) s -= a[c * n + j] * b[j];
        b[c] = s / a[c * n + c];
    }
    return 0;
}

// The stationary shares; 1 where there are none.
static int shares(const Par *q, double *x) {
    int k = q->k;
    double a[256];
    for (int i = 0; i < k; i++) {
        for (int j = 0; j < k; j++) a[i * k + j] = (i == j) - q->P[i * k + j];
        x[i] = 0;
    }
    for (int j = 0; j < k; j++) a[(k - 1) * k + j] = 1;
    x[k - 1] = 1;
    if (solve(a, x, k)) return 1;
    for (int i = 0; i < k; i++) {
        if (!(x[i] > -1e-9)) return 1;
        if (x[i] < 0) x[i] = 0;
    }
    return 0;
}

// The residuals of reading t under each window.
static void resid(const Par *q, const double *y, int t, double *e) {
    int k = q->k, m = k;
    for (int s = 0; s < k; s++) e[s] = y[t] - q->mu[s];
    for (int l = 1; l <= q->p; l++) {
        for (int r = k - 1; r >= 0; r--) {
            double d = q->ar[l - 1] * (y[t - l] - q->mu[r]);
            for (int a = 0; a < m; a++) e[r * m + a] = e[a] - d;
        }
        m *= k;
    }
}

// The filter: predictions and filtered weights, n rows of m. The log-likelihood, or NaN.
static double filt(const Par *q, const double *y, int T, int m, double *pred, double *fi) {
    int k = q->k, p = q->p, n = T - p, mp = m / k;
    double x[16], lv[16], iv[16], e[256], ll = 0;
    if (shares(q, x)) return NAN;
    for (int s = 0; s < k; s++) {
        double v = q->v[q->sv ? s : 0];
        lv[s] = -.5 * (LN_2PI + log(v));
        iv[s] = -.5 / v;
    }
    double *pr = pred;
    {
        double w[256];
        int len = k; // oldest label first
        for (int s = 0; s < k; s++) w[s] = x[s];
        for (int l = 0; l < p; l++) {
            for (int c = len - 1; c >= 0; c--) {
                double z = w[c];
                int b = c % k;
                for (int s = k - 1; s >= 0; s--) pr[c * k + s] = q->P[s * k + b] * z;
            }
            len *= k;
            memcpy(w, pr, len * sizeof(double));
        }
        memcpy(pr, w, m * sizeof(double));
    }
    for (int i = 0; i < n; i++) {
        double *pp = pred + i * m, *f = fi + i * m;
        if (i) {
            double *g = fi + (i - 1) * m;
            for (int c = 0; c < mp; c++) {
                double z = 0;
                for (int o = 0; o < k; o++) z += g[o * mp + c];
                int b = c % k;
                for (int s = 0; s < k; s++) pp[c * k + s] = q->P[s * k + b] * z;
            }
        }
        resid(q, y, p + i, e);
        double mx = -INFINITY;
        int s = 0;
        for (int a = 0; a < m; a++) {
            e[a] = lv[s] + iv[s] * e[a] * e[a];
            if (e[a] > mx) mx = e[a];
            if (++s == k) s = 0;
        }
        double tot = 0;
        for (int a = 0; a < m; a++) {
            double d = e[a] - mx;
            f[a] = d < -745 ? 0 : pp[a] * exp(d);
            tot += f[a];
        }
        if (!(tot > 0) || !isfinite(tot)) return NAN;
        for (int a = 0; a < m; a++) f[a] /= tot;
        ll += mx + log(tot);
    }
    return ll;
}

// The smoother, over the filtered weights.
static void smooth(const Par *q, int n, int m, double *pred, double *f) {
    int k = q->k, mp = m / k;
    for (int i = n - 2; i >= 0; i--) {
        double *g = f + i * m, *h = f + (i + 1) * m, *pp = pred + (i + 1) * m;
        double r[256];
        for (int c = 0; c < mp; c++) {
            int b = c % k;
            double z = 0;
            for (int s = 0; s < k; s++) {
                double d = pp[c * k + s];
                if (d > 0) z += h[c * k + s] / d * q->P[s * k + b];
            }
            r[c] = z;
        }
        for (int a = 0; a < m; a++) g[a] *= r[a % mp];
    }
}

// Means, AR coefficients and variances once, each at what was found before it. 1 where a system is singular.
static int sweep(Par *q, const double *y, int T, int m, const double *g, double floor_) {
    int k = q->k, p = q->p, n = T - p;
    double A[256] = {0}, b[16] = {0}, sens[256 * 16];
    for (int a = 0; a < m; a++) {
        double *r = sens + a * k;
        for (int s = 0; s < k; s++) r[s] = 0;
        r[a % k] = -1;
        int rest = a / k;
        for (int l = 0; l < p; l++) {
            r[rest % k] += q->ar[l];
            rest /= k;
        }
    }
    // of each window the sum of its weights, and of weights times what the lags leave of a reading
    double W[256] = {0}, D[256] = {0};
    for (int i = 0; i < n; i++) {
        int t = p + i;
        double d = y[t];
        for (int l = 1; l <= p; l++) d -= q->ar[l - 1] * y[t - l];
        const double *w = g + i * m;
        for (int a = 0; a < m; a++) {
            W[a] += w[a];
            D[a] += w[a] * d;
        }
    }
    for (int a = 0; a < m; a++) {
        double iv = 1 / q->v[q->sv ? a % k : 0];
        double *r = sens + a * k;
        for (int x = 0; x < k; x++) {
            b[x] -= iv * D[a] * r[x];
            for (int c = 0; c < k; c++) A[x * k + c] += iv * W[a] * r[x] * r[c];
        }
    }
    double mx = 0;
    for (int x = 0; x < k; x++)
        if (A[x * k + x] > mx) mx = A[x * k + x];
    if (mx > 0 && isfinite(mx)) {
        for (int x = 0; x < k; x++) A[x * k + x] += 1e-12 * mx;
        if (solve(A, b, k)) return 1;
        memcpy(q->mu, b, k * sizeof(double));
    }
    // AR: normal equations; lags' labels
    if (p) {
        double N[64] = {0}, R[8] = {0};
        for (int i = 0; i < n; i++) {
            int t = p + i;
            const double *w = g + i * m;
            for (int a = 0; a < m; a++) {
                double wa = w[a];
                if (wa < 1e-14) continue;
                int s = a % k;
                double iv = wa / q->v[q->sv ? s : 0];
                double z[8];
                int rest = a / k;
                for (int l = 0; l < p; l++) {
                    z[l] = y[t - 1 - l] - q->mu[rest % k];
                    rest /= k;
                }
                double d = y[t] - q->mu[s];
                for (int l = 0; l < p; l++) {
                    double f = iv * z[l];
                    R[l] += f * d;
                    for (int c = 0; c <= l; c++) N[l * p + c] += f * z[c];
                }
            }
        }
        for (int l = 0; l < p; l++)
            for (int c = 0; c < l; c++) N[c * p + l] = N[l * p + c];
        mx = 0;
        for (int x = 0; x < p; x++)
            if (N[x * p + x] > mx) mx = N[x * p + x];
        if (mx > 0 && isfinite(mx)) {
            for (int x = 0; x < p; x++) N[x * p + x] += 1e-12 * mx;
            if (solve(N, R, p)) return 1;
            memcpy(q->ar, R, p * sizeof(double));
        }
    }
    double sq[16] = {0}, ws[16] = {0}, e[256];
    for (int i = 0; i < n; i++) {
        resid(q, y, p + i, e);
        const double *w = g + i * m;
        int s = 0;
        for (int a = 0; a < m; a++) {
            int bb = q->sv ? s : 0;
            sq[bb] += w[a] * e[a] * e[a];
            ws[bb] += w[a];
            if (++s == k) s = 0;
        }
    }
    for (int s = 0; s < (q->sv ? k : 1); s++)
        if (ws[s] > 0) {
            double v = sq[s] / ws[s];
            q->v[s] = v > floor_ ? v : floor_;
        }
    return 0;
}

// The EM step: two sweeps, and the transition table from the counts.
static int step(Par *q, const double *y, int T, int m, const double *g, double fl) {
    int k = q->k, n = T - q->p;
    double C[256] = {0}, col[16] = {0};
    if (sweep(q, y, T, m, g, fl) || sweep(q, y, T, m, g, fl)) return 1;
    for (int i = 0; i < n; i++) {
        const double *w = g + i * m;
        for (int a = 0; a < m; a++) {
            int s = a % k, bb = (a / k) % k;
            C[s * k + bb] += w[a];
            col[bb] += w[a];
        }
    }
    for (int j = 0; j < k; j++)
        if (col[j] > 0)
            for (int i = 0; i < k; i++) q->P[i * k + j] = C[i * k + j] / col[j];
    for (int i = 0; i < k; i++)
        if (!isfinite(q->mu[i])) return 1;
    return 0;
}

static void in_(Par *q, int k, int p, int sv, const double *x) {
    q->k = k;
    q->p = p;
    q->sv = sv;
    memcpy(q->P, x, k * k * 8);
    x += k * k;
    memcpy(q->mu, x, k * 8);
    x += k;
    memcpy(q->ar, x, p * 8);
    x += p;
    memcpy(q->v, x, (sv ? k : 1) * 8);
}

static void out_(const Par *q, double *x) {
    int k = q->k, p = q->p;
    memcpy(x, q->P, k * k * 8);
    x += k * k;
    memcpy(x, q->mu, k * 8);
    x += k;
    memcpy(x, q->ar, p * 8);
    x += p;
    memcpy(x, q->v, (q->sv ? k : 1) * 8);
}

static int pow_(int k, int e) {
    int m = 1;
    while (e--) m *= k;
    return m;
}

double loglike(int k, int p, int sv, const double *y, int T, const double *x) {
    Par q;
    in_(&q, k, p, sv, x);
    int m = pow_(k, p + 1);
    double *w = malloc(2l * T * m * 8);
    double r = filt(&q, y, T, m, w, w + (long)T * m);
    free(w);
    return r;
}

// From x, at most max_iter passes. The count of passes begun, 100000 more where it did not converge, or -1. x and lls[1]: what was
// reached, and its log-likelihood; xmid and lls[0]: the same with at most mid passes; lls[2]: the highest on the way.
int fit(int k, int p, int sv, const double *y, int T, double *x, int mid, int max_iter, double tol, double *lls,
        double *xmid) {
    Par q;
    in_(&q, k, p, sv, x);
    int m = pow_(k, p + 1);
    double *pred = malloc(2l * T * m * 8), *fi = pred + (long)T * m;
    double mean = 0, var = 0;
    for (int i = 0; i < T; i++) mean += y[i];
    mean /= T;
    for (int i = 0; i < T; i++) var += (y[i] - mean) * (y[i] - mean);
    var /= T;
    double prev = 0, ll = NAN;
    int it = 0, conv = 0, gotmid = 0;
    lls[0] = lls[1] = lls[2] = NAN;
    for (;;) {
        ll = filt(&q, y, T, m, pred, fi);
        if (!(ll == ll)) {
            it = -1;
            break;
        }
        if (!(lls[2] >= ll)) lls[2] = ll;
        if (it == mid && !gotmid) {
            gotmid = 1;
            lls[0] = ll;
            out_(&q, xmid);
        }
        if (it >= max_iter) break;
        it++;
        if (it >= 2 && ll - prev <= tol) {
            conv = 1;
            break;
        }
        prev = ll;
        smooth(&q, T - p, m, pred, fi);
        if (step(&q, y, T, m, fi, 1e-12 * var)) {
            it = -1;
            break;
        }
    }
    free(pred);
    if (it < 0) {
        return -1;
    }
    lls[1] = ll;
    if (!gotmid) {
        lls[0] = ll;
        out_(&q, xmid);
    }
    out_(&q, x);
    return conv ? it : it + 100000;
}

// On from x past the stop rule, until a pass gains or loses at most tol, or max_iter passes are made. The log-likelihood there.
double fixpoint(int k, int p, int sv, const double *y, int T, double *x, int max_iter, double tol) {
    Par q;
    in_(&q, k, p, sv, x);
    int m = pow_(k, p + 1);
    double *pred = malloc(2l * T * m * 8), *fi = pred + (long)T * m;
    double mean = 0, var = 0;
    for (int i = 0; i < T; i++) mean += y[i];
    mean /= T;
    for (int i = 0; i < T; i++) var += (y[i] - mean) * (y[i] - mean);
    var /= T;
    double prev = NAN, ll = NAN;
    for (int it = 0;; it++) {
        ll = filt(&q, y, T, m, pred, fi);
        if (!(ll == ll) || it >= max_iter || fabs(ll - prev) <= tol) break;
        prev = ll;
        smooth(&q, T - p, m, pred, fi);
        if (step(&q, y, T, m, fi, 1e-12 * var)) {
            ll = NAN;
            break;
        }
    }
    free(pred);
    out_(&q, x);
    return ll;
}

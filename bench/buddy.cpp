// The checker's job done over BuDDy 2.4: the same input, the same making calls in the same order, the
// same report (docs/RULES.md). The checker is measured against it, so it expects a job that the rules
// accept; only a wrong length is refused.
#include <bdd.h>
#include <unistd.h>

#include <array>
#include <cstdint>
#include <cstdio>
#include <cstdlib>
#include <string>
#include <vector>

namespace {

// The jobs make at most 8,192 nodes, so that this table never grows and no garbage is collected. Of the
// sizes tried, 9,000 to 65,536 nodes and 512 to 16,384 cache entries, none is faster on the jobs of
// make_jobs by more than the noise.
constexpr int kNodes = 1 << 14;
constexpr int kCache = 1 << 12;
constexpr int kVariables = 24;
constexpr size_t kMost = 5131;

struct Job {
    std::string bytes;

    size_t number(size_t i) const { return uint8_t(bytes[2 * i]) + 256 * uint8_t(bytes[2 * i + 1]); }
    size_t assumption() const { return number(0); }
    size_t property() const { return number(1); }
    int registers() const { return number(2); }
    int inputs() const { return number(3); }
    size_t gates() const { return number(4); }
    size_t texts() const { return 10 + 4 * gates(); }
    bool whole() const {
        return bytes.size() >= 10 && bytes.size() == texts() + assumption() + property();
    }
};

// Reads a claim over the lines, and makes each operator once its operands are there.
class Reader {
  public:
    Reader(const std::string &text, const Job &job, const std::vector<bdd> &lines)
        : at_(text.c_str()), inputs_(1 + job.registers()), gates_(inputs_ + job.inputs()), lines_(lines) {}

    bdd claim() {
        bdd f = term();
        while (take('|')) f = bdd_or(f, term());
        return f;
    }

  private:
    bdd term() {
        bdd f = factor();
        while (take('&')) f = bdd_and(f, factor());
        return f;
    }

    bdd factor() {
        if (take('!')) return bdd_not(factor());
        if (take('0')) return bddfalse;
        if (take('1')) return bddtrue;
        if (take('(')) {
            bdd f = claim();
            take(')');
            return f;
        }
        size_t line = take('s') ? 1 : take('v') ? inputs_ : take('g') ? gates_ : 0;
        return lines_[line + strtoul(at_, const_cast<char **>(&at_), 10)];
    }

    bool take(char token) {
        while (*at_ == ' ') ++at_;
        if (*at_ != token) return false;
        ++at_;
        return true;
    }

    const char *at_;
    size_t inputs_, gates_;  // the first line of each
    const std::vector<bdd> &lines_;
};

bdd cofactor(const bdd &f, int x, bool value) {
    return bdd_restrict(f, value ? bdd_ithvar(x) : bdd_nithvar(x));
}

// f with g for the variable x.
bdd replace(const bdd &f, int x, const bdd &g, const bdd &not_g) {
    bdd low = cofactor(f, x, false), high = cofactor(f, x, true);
    bdd on = bdd_and(g, high), off = bdd_and(not_g, low);
    return bdd_or(on, off);
}

class Search {
  public:
    explicit Search(const Job &job) : n_(job.registers()), m_(job.inputs()) {
        std::vector<bdd> lines = make_lines(job);
        for (int i = 0; i < n_; ++i) nexts_[i] = lines[lines.size() - n_ - 1 + i];
        init_ = lines.back();
        assumed_ = Reader(job.bytes.substr(job.texts(), job.assumption()), job, lines).claim();
        bdd promised = Reader(job.bytes.substr(job.texts() + job.assumption()), job, lines).claim();
        leads_.push_back(bdd_and(bdd_not(promised), assumed_));
        sets_.push_back(some_input(leads_.back()));
        met_ = bdd_and(sets_.back(), init_);
        for (int i = 0; i < n_; ++i) uncopies_[i] = bdd_not(copies_[i]);
        for (int i = 0; i < n_; ++i) unnexts_[i] = bdd_not(nexts_[i]);
    }

    // Advances until settled, and writes what is found.
    void report() {
        while (met_ == bddfalse && !safe_) advance();
        printf("verdict %s\ndepth %zu\n", safe_ ? "safe" : "unsafe", sets_.size() - 1);
        if (safe_) {
            double held = bdd_satcount(sets_.back()) / (1 << (kVariables - n_));
            printf("inside %d\naccepted 1\n", (1 << n_) - int(held));
        } else {
            write_trace();
            printf("accepted 0\n");
        }
    }

  private:
    std::vector<bdd> make_lines(const Job &job) {
        std::vector<bdd> lines{bddfalse};
        lines.reserve(1 + n_ + m_ + job.gates());
        for (int i = 0; i < n_; ++i) {
            lines.push_back(bdd_ithvar(2 * i));
            copies_[i] = bdd_ithvar(2 * i + 1);
        }
        for (int j = 0; j < m_; ++j) lines.push_back(bdd_ithvar(2 * n_ + j));
        auto literal = [&](size_t x) { return x % 2 ? bdd_not(lines[x / 2]) : lines[x / 2]; };
        for (size_t g = 0; g < job.gates(); ++g) {
            bdd left = literal(job.number(5 + g)), right = literal(job.number(5 + job.gates() + g));
            lines.push_back(bdd_and(left, right));
        }
        return lines;
    }

    bdd some_input(bdd f) const {
        for (int x = 2 * n_; x < 2 * n_ + m_; ++x) {
            bdd low = cofactor(f, x, false), high = cofactor(f, x, true);
            f = bdd_or(low, high);
        }
        return f;
    }

    void advance() {
        bdd f = sets_.back();
        for (int i = 0; i < n_; ++i) f = replace(f, 2 * i, copies_[i], uncopies_[i]);
        for (int i = 0; i < n_; ++i) f = replace(f, 2 * i + 1, nexts_[i], unnexts_[i]);
        leads_.push_back(bdd_and(f, assumed_));
        bdd set = bdd_or(some_input(leads_.back()), sets_.back());
        safe_ = set == sets_.back();
        if (!safe_) met_ = bdd_and(set, init_);
        sets_.push_back(set);
    }

    // The node for f at the state q: only inputs are left below it. Nothing is made here, so that plain
    // numbers of nodes do.
    BDD at_state(const bdd &f, int q) const {
        BDD node = f.id();
        while (node > 1 && bdd_var(node) < 2 * n_)
            node = q >> (bdd_var(node) / 2) & 1 ? bdd_high(node) : bdd_low(node);
        return node;
    }

    bool at_input(BDD node, int v) const {
        while (node > 1) node = v >> (bdd_var(node) - 2 * n_) & 1 ? bdd_high(node) : bdd_low(node);
        return node;
    }

    void write_trace() const {
        int q = 0;
        while (!at_state(met_, q)) ++q;
        for (size_t left = sets_.size(); left-- > 0;) {
            BDD lead = at_state(leads_[left], q);
            int v = 0, next = 0;
            while (!at_input(lead, v)) ++v;
            printf("%zu %d %d\n", sets_.size() - 1 - left, q, v);
            for (int i = 0; i < n_; ++i) next |= at_input(at_state(nexts_[i], q), v) << i;
            q = next;
        }
    }

    int n_, m_;
    std::array<bdd, 8> copies_, uncopies_, nexts_, unnexts_;
    bdd assumed_, init_, met_;
    std::vector<bdd> sets_;   // B_0 to B_j
    std::vector<bdd> leads_;  // where H holds and P fails; then where H holds and the step ends in B_0, ..
    bool safe_ = false;
};

}  // namespace

int main() {
    bdd_init(kNodes, kCache);
    bdd_setvarnum(kVariables);
    bdd_gbc_hook(nullptr);
    Job job{std::string(kMost, '\0')};
    size_t length = 0;
    for (ssize_t more; (more = read(STDIN_FILENO, &job.bytes[length], kMost - length)) > 0;) length += more;
    job.bytes.resize(length);
    if (!job.whole()) {
        printf("refused 2 part 0 place %zu\naccepted 0\n", length);
        return 0;
    }
    printf("registers %d inputs %d gates %zu\n", job.registers(), job.inputs(), job.gates());
    Search(job).report();
}

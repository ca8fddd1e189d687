// The ladder of benchmarks/bumps.sh in QuantLib: 200 quotes, four summed beneath each of 50 helpers of a curve, an index, and 100 bonds
// in one book, half of them floating. Each quote is moved by 0.0001 up, down and back, and the book is asked each time. It writes how
// long the ladder takes, the book's worth, and what it gains over all moves up and down.
//
//   g++ -O2 -std=c++17 -o /tmp/bumps_quantlib benchmarks/bumps_quantlib.cpp -lQuantLib     # Debian's libquantlib0-dev, QuantLib 1.29
//   /tmp/bumps_quantlib
//
// The curve is built by its bootstrap of discount factors with straight lines between them; its swaps forecast on the curve itself.
#include <chrono>
#include <functional>
#include <iomanip>
#include <iostream>
#include <vector>
#include <ql/quantlib.hpp>

using namespace QuantLib;

int main() {
    Settings::instance().evaluationDate() = Date(2, January, 2024);
    Calendar target = TARGET();
    std::vector<ext::shared_ptr<SimpleQuote>> quotes;
    for (int k = 0; k < 200; ++k)
        quotes.push_back(ext::make_shared<SimpleQuote>(0.0075));
    typedef CompositeQuote<std::plus<Real>> Sum;
    auto sum = [](const ext::shared_ptr<Quote>& a, const ext::shared_ptr<Quote>& b) {
        return ext::make_shared<Sum>(Handle<Quote>(a), Handle<Quote>(b), std::plus<Real>());
    };
    // The index forecasts on the curve under construction, as the swaps of one curve do.
    RelinkableHandle<YieldTermStructure> handle;
    auto index = ext::make_shared<IborIndex>("x", 6 * Months, 2, EURCurrency(), target, Following, false, Actual360(), handle);
    auto inner = ext::make_shared<IborIndex>("x", 6 * Months, 2, EURCurrency(), target, Following, false, Actual360());
    std::vector<ext::shared_ptr<RateHelper>> helpers;
    for (int k = 0; k < 50; ++k) {
        Handle<Quote> rate(sum(sum(quotes[4 * k], quotes[4 * k + 1]), sum(quotes[4 * k + 2], quotes[4 * k + 3])));
        if (k < 12)
            helpers.push_back(ext::make_shared<DepositRateHelper>(rate, (k + 1) * Months, 2, target, Following, false, Actual360()));
        else
            helpers.push_back(ext::make_shared<SwapRateHelper>(rate, (k - 10) * Years, target, Annual, Following,
                                                               Thirty360(Thirty360::BondBasis), inner));
    }
    auto curve = ext::make_shared<PiecewiseYieldCurve<Discount, Linear>>(2, target, helpers, Actual365Fixed());
    handle.linkTo(curve);
    auto engine = ext::make_shared<DiscountingBondEngine>(handle);
    auto book = ext::make_shared<CompositeInstrument>();
    Date start(1, February, 2024);
    for (int k = 0; k < 100; ++k) {
        Date end(1, February, 2026 + k % 30);
        ext::shared_ptr<Bond> bond;
        if (k % 2 == 0)
            bond = ext::make_shared<FixedRateBond>(2, 100.0, Schedule(start, end, 1 * Years, target, Unadjusted, Unadjusted, DateGeneration::Forward, false),
                                                   std::vector<Rate>(1, 0.03), Actual360());
        else
            bond = ext::make_shared<FloatingRateBond>(2, 100.0, Schedule(start, end, 6 * Months, target, Unadjusted, Unadjusted, DateGeneration::Forward, false),
                                                      index, Actual360(), Following, 2);
        bond->setPricingEngine(engine);
        book->add(bond);
    }
    auto begun = std::chrono::steady_clock::now();
    Real base = book->NPV(), up = 0, down = 0;
    for (auto& quote : quotes) {
        Real old = quote->value();
        quote->setValue(old + 0.0001);
        up += book->NPV() - base;
        quote->setValue(old - 0.0001);
        down += book->NPV() - base;
        quote->setValue(old);
    }
    std::chrono::duration<double, std::milli> took = std::chrono::steady_clock::now() - begun;
    std::cout << std::fixed << std::setprecision(6) << "QuantLib " << QL_VERSION << ": the ladder of the book: " << std::setprecision(0) << took.count()
              << " ms; the book " << std::setprecision(6) << base << ", all moves up " << up << ", down " << down << std::endl;
    return 0;
}

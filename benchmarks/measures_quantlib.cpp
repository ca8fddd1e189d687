// Measures of bonds by QuantLib. Each line of its input is a bond on 1,000,000, a settlement day, a yield and a full price:
//
//   CALENDAR:START:END:COUPON:EVERY:CONVENTION:COUNTER,DAY,YIELD,PRICE
//
// as `models/exact_measures.py MODEL ask` writes them. For each it writes, with commas between,
//
//   - the yield at that price by BondFunctions::yield, to an accuracy of 10^-13 and to its default one, 10^-10;
//   - by BondFunctions::dirtyPrice a basis point below the yield, at it and above it: what is gained by a basis point, the fall over two
//     for each 1 of price and of yield, and the second difference so;
//   - BondFunctions::basisPointValue, duration (modified) and convexity.
//
//   g++ -O2 -std=c++17 -o /tmp/measures_quantlib benchmarks/measures_quantlib.cpp -lQuantLib     # Debian's libquantlib0-dev, QuantLib 1.29
//   /tmp/measures_quantlib < QUESTIONS > FIGURES
//
// Each with Simple compounding and Actual365Fixed. The coupons are QuantLib's, which are not rounded; the redemption is paid on the bond's end, moved
// by Following, as it is here.
#include <iomanip>
#include <iostream>
#include <sstream>
#include <string>
#include <vector>
#include <ql/quantlib.hpp>

using namespace QuantLib;

static const Real NOTIONAL = 1000000.0;
static const Rate STEP = 0.0001;

static std::vector<std::string> split(const std::string& text, char mark) {
    std::vector<std::string> words;
    std::stringstream rest(text);
    for (std::string word; std::getline(rest, word, mark);)
        words.push_back(word);
    return words;
}

static Calendar calendar(const std::string& name) {
    if (name == "T")
        return TARGET();
    if (name == "W")
        return WeekendsOnly();
    return NullCalendar();
}

static BusinessDayConvention convention(const std::string& name) {
    return name == "F" ? Following : name == "P" ? Preceding : ModifiedFollowing;
}

static DayCounter counter(const std::string& name) {
    if (name == "act360")
        return Actual360();
    if (name == "act365")
        return Actual365Fixed();
    if (name == "actact")
        return ActualActual(ActualActual::ISDA);
    return Thirty360(name == "thirty360" ? Thirty360::BondBasis : Thirty360::European);
}

static Bond bond(const std::string& terms) {
    auto words = split(terms, ':');
    Calendar days = calendar(words[0]);
    Date start = DateParser::parseISO(words[1]), end = DateParser::parseISO(words[2]);
    BusinessDayConvention adjust = convention(words[5]);
    Schedule schedule(start, end, PeriodParser::parse(words[4]), days, adjust, adjust, DateGeneration::Backward, false);
    Leg flows = FixedRateLeg(schedule)
                    .withNotionals(NOTIONAL)
                    .withCouponRates(std::stod(words[3]) / 1e9, counter(words[6]))
                    .withPaymentAdjustment(Following)
                    .withPaymentCalendar(days);
    Date last = days.adjust(end, Following);
    flows.push_back(ext::make_shared<Redemption>(NOTIONAL, last));
    return Bond(0, days, NOTIONAL, last, start, flows);
}

int main() {
    DayCounter year = Actual365Fixed();
    std::cout << std::fixed << std::setprecision(15);
    for (std::string line; std::getline(std::cin, line);) {
        auto fields = split(line, ',');
        Bond asked = bond(fields[0]);
        Date day = DateParser::parseISO(fields[1]);
        Rate rate = std::stod(fields[2]) / 1e9;
        Settings::instance().evaluationDate() = day;
        Real unit = NOTIONAL / 100;
        Real clean = std::stod(fields[3]) / unit - BondFunctions::accruedAmount(asked, day);
        auto price = [&](Rate y) { return BondFunctions::dirtyPrice(asked, y, year, Simple, Annual, day) * unit; };
        Real below = price(rate - STEP), here = price(rate), above = price(rate + STEP);
        std::cout << BondFunctions::yield(asked, clean, year, Simple, Annual, day, 1e-13, 1000, rate) << ','
                  << BondFunctions::yield(asked, clean, year, Simple, Annual, day, 1e-10, 1000) << ','
                  << above - here << ',' << (below - above) / (2 * here * STEP) << ',' << (below + above - 2 * here) / (here * STEP * STEP) << ','
                  << BondFunctions::basisPointValue(asked, rate, year, Simple, Annual, day) << ','
                  << BondFunctions::duration(asked, rate, year, Simple, Annual, Duration::Modified, day) << ','
                  << BondFunctions::convexity(asked, rate, year, Simple, Annual, day) << '\n';
    }
    return 0;
}

// Deltas, gammas, parallel shifts and thetas in QuantLib, of the markets that benchmarks/risk_quantlib.py writes: it reads a plan of one market, and
// writes the lines of `doqs risk` for each instrument, with nine places.
//
//   g++ -O2 -std=c++17 -o /tmp/risk_quantlib benchmarks/risk_quantlib.cpp -lQuantLib     # Debian's libquantlib0-dev, QuantLib 1.29
//
// The curve is built by its bootstrap of discount factors with straight lines between them; the floating legs of its swaps are at par, and the
// coupons of instruments are forecast over the index's own period, as here. Each quote is moved by the size up and down and set back, and then all quotes of the curve together;
// at last the evaluation date is moved to the next business day. What is paid in between are the flows behind the curve's reference date of today, up to that of then.
#include <fstream>
#include <functional>
#include <iomanip>
#include <iostream>
#include <map>
#include <sstream>
#include <vector>
#include <ql/quantlib.hpp>

using namespace QuantLib;

int main(int count, char** words) {
    std::ifstream plan(words[count - 1]);
    IborCoupon::Settings::instance().createIndexedCoupons();
    Calendar target = TARGET();
    std::map<std::string, ext::shared_ptr<SimpleQuote>> quotes;
    std::map<std::string, ext::shared_ptr<Instrument>> made;
    std::vector<std::string> order, of_curve, shares;
    std::vector<ext::shared_ptr<RateHelper>> helpers;
    RelinkableHandle<YieldTermStructure> handle;
    auto index = ext::make_shared<IborIndex>("x", 6 * Months, 2, EURCurrency(), target, ModifiedFollowing, true, Actual360(), handle);
    auto inner = ext::make_shared<IborIndex>("y", 6 * Months, 2, EURCurrency(), target, ModifiedFollowing, false, Actual360());
    auto book = ext::make_shared<CompositeInstrument>();
    auto swaps = ext::make_shared<DiscountingSwapEngine>(handle);
    auto bonds = ext::make_shared<DiscountingBondEngine>(handle);
    Real size = 0;
    std::string line, word, name, tenor, side;
    auto schedule = [&](Date start, Date end, Period every, BusinessDayConvention convention) {
        return Schedule(start, end, every, target, convention, convention, DateGeneration::Backward, false);
    };
    auto add = [&](const std::string& name, ext::shared_ptr<Instrument> instrument) {
        made[name] = instrument;
        order.push_back(name);
    };
    // The flows of an instrument, or of the parts of the book, each with its sign or weight.
    std::map<std::string, std::vector<std::pair<Leg, Real>>> flows;
    while (std::getline(plan, line)) {
        std::istringstream in(line);
        Integer d, m, y;
        Real notional, rate;
        auto date = [&]() {
            in >> d >> m >> y;
            return Date(d, Month(m), y);
        };
        in >> word;
        if (word == "today") {
            Settings::instance().evaluationDate() = date();
        } else if (word == "size") {
            in >> size;
        } else if (word == "deposit" || word == "par") {
            in >> name >> tenor >> rate;
            quotes[name] = ext::make_shared<SimpleQuote>(rate);
            of_curve.push_back(name);
            Handle<Quote> quote(quotes[name]);
            Period length = PeriodParser::parse(tenor);
            if (word == "deposit")
                helpers.push_back(ext::make_shared<DepositRateHelper>(quote, length, 2, target, ModifiedFollowing, false, Actual360()));
            else
                helpers.push_back(ext::make_shared<SwapRateHelper>(quote, length, target, Annual, ModifiedFollowing,
                                                                   Thirty360(Thirty360::BondBasis), inner, Handle<Quote>(), 0 * Days,
                                                                   Handle<YieldTermStructure>(), 2, Pillar::MaturityDate, Date(), false, false));
        } else if (word == "curve") {
            handle.linkTo(ext::make_shared<PiecewiseYieldCurve<Discount, Linear>>(2, target, helpers, Actual365Fixed()));
        } else if (word == "fixing") {
            Date day = date();
            in >> rate;
            index->addFixing(day, rate);
        } else if (word == "bond") {
            in >> name >> notional;
            Date start = date(), end = date();
            in >> rate;
            auto bond = ext::make_shared<FixedRateBond>(2, notional, schedule(start, end, 1 * Years, Unadjusted), std::vector<Rate>(1, rate),
                                                        ActualActual(ActualActual::ISDA));
            bond->setPricingEngine(bonds);
            flows[name] = {{bond->cashflows(), 1.0}};
            add(name, bond);
        } else if (word == "floater") {
            in >> name >> notional;
            Date start = date(), end = date();
            in >> rate;
            auto bond = ext::make_shared<FloatingRateBond>(2, notional, schedule(start, end, 6 * Months, ModifiedFollowing), index, Actual360(),
                                                           Following, 2, std::vector<Real>(1, 1.0), std::vector<Spread>(1, rate));
            bond->setPricingEngine(bonds);
            flows[name] = {{bond->cashflows(), 1.0}};
            add(name, bond);
        } else if (word == "swap") {
            in >> name >> notional >> side;
            Date start = date(), end = date();
            in >> rate;
            auto swap = ext::make_shared<VanillaSwap>(side == "pay" ? Swap::Payer : Swap::Receiver, notional,
                                                      schedule(start, end, 1 * Years, ModifiedFollowing), rate, Thirty360(Thirty360::BondBasis),
                                                      schedule(start, end, 6 * Months, ModifiedFollowing), index, 0.0, Actual360());
            swap->setPricingEngine(swaps);
            for (Size leg = 0; leg < 2; ++leg)
                flows[name].push_back({swap->leg(leg), swap->payer(leg) ? -1.0 : 1.0});
            add(name, swap);
        } else if (word == "fra") {
            in >> name >> notional >> side;
            Date start = date();
            in >> rate;
            add(name, ext::make_shared<ForwardRateAgreement>(start, side == "long" ? Position::Long : Position::Short, rate, notional, index, handle));
        } else if (word == "share") {
            in >> name >> word >> rate;
            quotes[word] = ext::make_shared<SimpleQuote>(rate);
            shares.push_back(word);
            add(name, ext::make_shared<Stock>(Handle<Quote>(quotes[word])));
        } else if (word == "part") {
            in >> name >> rate;
            book->add(made[name], rate);
            for (auto& [leg, weight] : flows[name])
                flows["book"].push_back({leg, weight * rate});
        }
    }
    add("book", book);
    std::cout << std::fixed << std::setprecision(9);
    for (auto& of : order) {
        auto instrument = made[of];
        Real base = instrument->NPV(), total = 0;
        std::cout << of << ",value,," << base << "\n";
        // Moves these quotes together and writes both figures.
        auto moved = [&](const std::vector<std::string>& group, const std::string& label) {
            std::vector<Real> old;
            for (auto& it : group)
                old.push_back(quotes[it]->value());
            auto at = [&](Real shift) {
                for (Size k = 0; k < group.size(); ++k)
                    quotes[group[k]]->setValue(old[k] + shift);
                return instrument->NPV();
            };
            Real up = at(size), down = at(-size);
            at(0);
            std::cout << of << ",delta," << label << "," << (up - down) / 2 << "\n" << of << ",gamma," << label << "," << up + down - 2 * base << "\n";
            return (up - down) / 2;
        };
        for (auto& it : of_curve)
            total += moved({it}, it);
        for (auto& it : shares)
            moved({it}, it);
        Real shift = moved(of_curve, "c");
        std::cout << of << ",sum,c," << total << "\n" << of << ",cross,c," << shift - total << "\n";
        Date today = Settings::instance().evaluationDate(), next = target.advance(today, 1, Days), now = handle->referenceDate();
        Settings::instance().evaluationDate() = next;
        Date then = handle->referenceDate();
        Real later = instrument->NPV(), paid = 0;
        Settings::instance().evaluationDate() = today;
        for (auto& [leg, weight] : flows[of])
            for (auto& flow : leg)
                if (flow->date() > now && flow->date() <= then)
                    paid += weight * flow->amount();
        std::cout << of << ",theta," << io::iso_date(next) << "," << later - base + paid << "\n";
    }
    return 0;
}

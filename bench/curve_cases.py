"""The jobs of curves.py beside those of examples/: energies as users write them, and held-out spellings."""
from typing import Dict, NamedTuple, Tuple

from argon import MASS
from spelling import LENNARD_JONES, NUMBERS

GLOBALS = {**NUMBERS, "c": "0.0062", "k": "138.9", "q": "0.65", "edge": "0.9"}
ARGON = (f"AR {MASS}",)
# Type codes, charges, and Lennard-Jones parameters of two types.
CODES = (f"A {MASS} 1", f"B {MASS} 2")
CHARGED = (f"A {MASS} 1 0.4", f"B {MASS} 0 -0.4")
MIXED = (f"A {MASS} 0.34 0.996", f"B 83.798 0.36 1.42")
PAIR = "pair=4*epsilon*(x^2-x); x=(sigma/r)^6"
KOB_ANDERSEN = "4*epsilon*(x^2-x); x=(sigma/r)^6"


class Case(NamedTuple):
    """An energy with its core in nm, the names of the types' parameters, the types and the globals. The cutoff is 0.9 nm."""

    energy: str
    core: str
    parameters: Tuple[str, ...] = ()
    types: Tuple[str, ...] = ARGON
    globals: Dict[str, str] = GLOBALS

    def job(self):
        lines = [f"energy {self.energy}", f"core {self.core}", "cutoff 0.9", "dt 2"]
        lines += [f"global {name} {text}" for name, text in self.globals.items()]
        lines += [f"parameter {name}" for name in self.parameters] + [f"type {it}" for it in self.types]
        return "\n".join(["pairmd job 1", *lines]) + "\n"


def of_codes(energy, core="0.2"):
    return Case(energy, core, ("id",), CODES, {})


def of_charges(energy, core="0.25"):
    return Case(energy, core, ("flag", "charge"), CHARGED)


def of_mixture(energy, core="0.25", **numbers):
    return Case(energy, core, ("sigma", "epsilon"), MIXED, numbers)


SPELLINGS = {
    "quotients": Case(LENNARD_JONES, "0.25"),
    "one-over-r": Case("a*(1/r)^12-b*(1/r)^6", "0.28"),
    "squared": Case("a*x^2-b*x; x=(1/r)^6", "0.3"),
    "sixth-powers": Case("4*epsilon*(x^2-x); x=sigma^6/r^6", "0.3"),
    "negative-powers": Case("a*r^-12-b*r^-6", "0.3"),
    "divided-powers": Case("a/r^12-b/r^6", "0.3"),
    "divided-far": Case("a/r^12-b/r^6", "0.6"),
    "small-numerals": Case("9.5076e-6*(1/r)^12-6.1545e-3*(1/r)^6", "0.3"),
    "attraction": Case("-c/r^6", "0.3"),
    "better-attraction": Case("-c*(1/r)^6", "0.3"),
    "coulomb": Case("k/r-k*q*r^2", "0.2"),
    "root": Case("k*sqrt(r^2+sigma^2)+(r-edge)^2/(r+edge)", "0.2"),
    "meeting": Case("select(step(r-0.55),(r-0.9)^2,0.1225-0.7*(r-0.55))", "0.3"),
    "steps": Case("q*floor(10*r)+epsilon*ceil(r/sigma)+delta(r-0.4)", "0.3"),
    "kinks": Case("min(u,max(abs(r-0.7),1.7-2*r)); u=(sigma/r)^12", "0.25"),
    # mixtures by type codes
    "kob-andersen-sums": of_codes(
        f"{KOB_ANDERSEN}; sigma=0.34*(1-0.2*mixed-0.12*small); epsilon=0.996*(1+0.5*mixed-0.5*small); "
        "mixed=delta(n-3); small=delta(n-4); n=id1+id2"
    ),
    "kob-andersen-likes": of_codes(
        f"{KOB_ANDERSEN}; sigma=like*(0.34*delta(id1-1)+0.2992*delta(id1-2))+0.272*(1-like); "
        "epsilon=like*(0.996*delta(id1-1)+0.498*delta(id1-2))+1.494*(1-like); like=delta(id1-id2)"
    ),
    "kob-andersen-selects": of_codes(
        f"{KOB_ANDERSEN}; sigma=select(n-3,select(n-2,0.2992,0.34),0.272); "
        "epsilon=select(n-3,select(n-2,0.498,0.996),1.494); n=id1+id2"
    ),
    "kob-andersen-halves": of_codes(
        f"{KOB_ANDERSEN}; sigma=0.34*like+0.272*mixed+0.2992*small; epsilon=0.996*like+1.494*mixed+0.498*small; "
        "like=step(2.5-n); mixed=step(n-2.5)*step(3.5-n); small=step(n-3.5); n=id1+id2"
    ),
    # flags
    "flag-of-charges": of_charges(f"pair+select(flag1*flag2,k*charge1*charge2*(1/r-1/edge),0); {PAIR}"),
    "flag-as-factor": of_charges(f"pair*(1-flag1*flag2)+k*charge1*charge2*(1/r-1/edge); {PAIR}"),
    "flag-of-sign": of_charges(f"pair+delta(flag1-flag2)*k*abs(charge1*charge2)/r; {PAIR}"),
    # clamps and cut-off repulsions
    "clamp-cubic": Case(f"pair*(1-y^2*(3-2*y)); y=max(0,min(1,(r-0.6)/0.2)); {PAIR}", "0.25"),
    "clamp-quintic": Case(f"pair*(1+y^3*(y*(15-6*y)-10)); y=min(1,max(0,(r-0.7)/(edge-0.7))); {PAIR}", "0.25"),
    "wca-max": Case("4*epsilon*(x^2-x)+epsilon; x=max(0.5,(sigma/r)^6)", "0.25"),
    "wca-min": Case("4*epsilon*(x^2-x)+epsilon; x=(sigma/min(r,1.122462048309373*sigma))^6", "0.25"),
    "wca-step": Case(f"step(1.122462048309373*sigma-r)*(pair+epsilon); {PAIR}", "0.25"),
    "wca-select": Case(f"select(step(1.122462048309373*sigma-r),pair+epsilon,0); {PAIR}", "0.25"),
    "wca-square": Case("4*epsilon*max(0,(sigma/r)^6-0.5)^2", "0.25"),
    # switched and shifted
    "switched-charmm": Case(
        "select(step(r-on),pair*(edge^2-r^2)^2*(edge^2+2*r^2-3*on^2)/(edge^2-on^2)^3,pair); on=0.7; " + PAIR, "0.25"
    ),
    "switched-factor": Case(f"pair*(1-step(r-0.7)*y^2*(3-2*y)); y=(r-0.7)/0.2; {PAIR}", "0.25"),
    "shifted": Case(f"pair-4*epsilon*((sigma/edge)^12-(sigma/edge)^6); {PAIR}", "0.25"),
    "shifted-coulomb": of_charges("k*charge1*charge2/r*(1-(r/edge)^2)^2", "0.2"),
    "shifted-force": of_charges("k*charge1*charge2*(1/r-1/edge+(r-edge)/edge^2)", "0.2"),
    # soft cores
    "soft-core-squares": of_mixture(
        "4*epsilon*lambda*x*(x-1); x=1/(0.5*(1-lambda)^2+(r/sigma)^6); sigma=0.5*(sigma1+sigma2); "
        "epsilon=sqrt(epsilon1*epsilon2)",
        "0",
        **{"lambda": "0.25"},
    ),
    "soft-coulomb": of_charges("k*charge1*charge2/sqrt(r^2+0.04)", "0"),
    "geometric": of_mixture("4*epsilon*(x^2-x); x=(sigma/r)^6; sigma=sqrt(sigma1*sigma2); epsilon=sqrt(epsilon1*epsilon2)"),
}
# Spellings on which no rule was tried before it was decided.
HELD_OUT = {
    "codes-of-products": of_codes(
        f"{KOB_ANDERSEN}; sigma=0.34-0.068*delta(id1*id2-2)-0.0408*delta(id1*id2-4); "
        "epsilon=0.996+0.498*(delta(id1*id2-2)-delta(id1*id2-4))"
    ),
    "codes-of-distances": of_codes(
        f"{KOB_ANDERSEN}; sigma=select(abs(id1-id2),0.272,0.34-0.0408*(id1-1)); epsilon=select(abs(id1-id2),1.494,0.996/id1)"
    ),
    "codes-of-maximum": of_codes(
        f"{KOB_ANDERSEN}; sigma=0.34+(max(id1,id2)-1)*(0.1000*(min(id1,id2)-1)-0.068); epsilon=0.996", "0.22"
    ),
    "flag-of-tail": of_charges(f"select(step(flag1+flag2-1.5),pair,pair+epsilon)*step(0.85-r); {PAIR}", "0.25"),
    "clamp-linear": Case(f"pair*max(0,min(1,(edge-r)*5)); {PAIR}", "0.25"),
    "wca-abs": Case("2*epsilon*(y+abs(y))^2; y=(sigma/r)^6-0.5", "0.25"),
    "switched-cosine-like": Case(
        "select(step(r-0.6),select(step(0.8-r),pair*(1-z)^2*(1+2*z),0),pair); z=(r-0.6)/0.2; " + PAIR, "0.25"
    ),
    "shifted-twice": Case(f"(pair-lower)*(1-(r/edge)^2); lower=4*epsilon*((sigma/edge)^12-(sigma/edge)^6); {PAIR}", "0.25"),
    "soft-core-root": Case("4*epsilon*(x^2-x); x=(sigma^2/(r^2+0.01))^3", "0"),
    "screened": of_charges("k*charge1*charge2/r*(1/(1+z/8))^8; z=3*r", "0.2"),
}

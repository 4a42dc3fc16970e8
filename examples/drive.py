"""Drives a session: a plan, a change that goes too far, and the way back."""

from palm import Refused, Session

with Session() as session:
    for name in ("survey", "pour", "inspect"):
        session.do(f"var {name} 8..12")
    session.do("add survey_first : pour > survey")
    session.do("add concrete_rests : inspect >= pour + 2")
    print(session.domains())

    if session.do("add late : pour >= 11") == "contradiction":
        print(session.do("minimal conflict"))
        session.do("retract late")
    print(session.do("solve dbt budget 10000"))

    try:
        session.do("add early : survey < nine")
    except Refused as refused:
        print("refused:", refused)

#!/usr/bin/env python3
"""Asks rowplan as alice by the client of clients/python, at the top of the repository.

usage: PYTHONPATH=clients/python examples/backend/rows.py
"""
import rowplan

with rowplan.connect("examples/sales/schema.sql", "examples/sales", "alice") as connection:
    cursor = connection.cursor()
    cursor.execute("SELECT id, owner, amount FROM deal WHERE amount > ?", (60,))
    print([(name, kind) for name, kind, *_ in cursor.description])
    for row in cursor:
        print(row)
    try:
        cursor.execute("SELECT id / ? FROM deal", (0,))
    except rowplan.DataError as error:
        print(error.code, error)

// A tour of the formula language. `./pfx view examples/tour.fx` prints a line for each formula below, with its value.
// A file is a list of named formulas, each of which may use the names of the earlier ones.

// ---- Numbers, texts, dates
Third = 1 / 3;                                   // numbers have four decimals, rounded half away from zero
Broken = 1 / 0;                                  // an error is a value, and prints its kind
Caught = IfError(Broken, -1);                    // an error can be caught,
Why = IfError(Broken, "it is " & FirstError.Kind);  // and asked for its kind
Nothing = Blank();                               // every type has a blank value,
Counted = Nothing + 1;                           // which counts as 0 among numbers
Quoted = "say ""hi""";                           // a quote in a text is doubled
Woven = $"{Third} of {{1}} is {100 * Third}%";   // a text with formulas in it
Leap = Date(2024, 2, 28) + 1;                    // a date and a number of days
Age = DateDiff(Leap, Date(2024, 12, 31));        // the days between two dates
IsLarge = Counted > 0 && "a" in "Tram";          // `in` passes over case

// ---- Records
Nut = {Name: "Nut", Price: 0.5, Size: {Width: 2, Height: 3}};   // fields print by rising names
Area = Nut.Size.Width * Nut.Size.Height;         // a field behind a dot
'List price' = Nut.Price * 1.2;                  // a name in quotes may have spaces
Named = With({p: Nut.Price, q: 3}, p * q);       // the fields of a record as names

// ---- Tables
Numbers = [3, 1, 2];                             // scalars become rows with the column Value
Stock = Table(Nut, {Name: "Bolt", Price: 1.25}, {Name: "Cog"});   // a missing field is blank
Rows = CountRows(Stock);                         // how many rows there are
Cheap = Filter(Stock, Price < 1);                // rows whose condition is true; a blank price counts as 0
Priced = Filter(Stock, !IsBlank(Price), Price < 1);   // several conditions must all hold
Bolt = LookUp(Stock, Name = "Bolt");             // the first row whose condition is true,
BoltPrice = LookUp(Stock, Name = "Bolt", Price); // or a formula of it
Missing = LookUp(Stock, Name = "Pin").Price;     // nothing found is blank, and so are its fields
Falling = Sort(Numbers, Value, SortOrder.Descending);   // rows of equal keys keep their order
Ends = {First: First(Numbers).Value, Last: Last(Numbers).Value};
Two = FirstN(Numbers, 2);                        // the first so many rows
Total = Sum(Stock, Price * 10);                  // a total of a formula over the rows
Average3 = Average(Stock, Price);                // blank values are passed over
Doubled = ForAll(Numbers, Value * 2);            // a formula for each row
Odd = ForAll(Numbers, If(Mod(Value, 2) = 1, Value));   // where it is blank the row is dropped
Labels = ForAll(Stock, {Label: Upper(Name)});    // a record for each row
Taxed = AddColumns(Cheap, Tax, Price / 10);      // a column more,
Short = ShowColumns(Taxed, Name, Tax);           // and some of the columns
Renamed = RenameColumns(Short, Name, Item);
Kinds = Distinct(Stock, IsBlank(Price));         // each value once
Line = Concat(Stock, Name, ", ");                // texts joined

// ---- Rows in rows
Pairs = ForAll([1, 2] As Outer, Sum([10, 20], Value + Outer.Value));   // an alias names an outer row
Whole = First(Filter(Numbers, ThisRecord.Value > 1));                  // the row itself is ThisRecord
Value = 100;
Mixed = ForAll([1, 2], Value + [@Value]);        // a column hides a formula of its name, which [@..] still reads

// ---- Errors in rows
Inverse = AddColumns([1, 0], Inv, 1 / Value);    // an error stays in its field,
Failed = Sum(Inverse, Inv);                      // until something reads it
Safe = Sum(Inverse, IfError(Inv, 0));            // unless it is caught in its row

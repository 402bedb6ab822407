# GAP's answer for a presentation, and the time that PQuotient takes.

# The relators, and the iterated ones with endomorphisms applied up to so many times, each once. Empty ones are left out.
Expanded := function(F, fixed, iterated, endos, depth)
  local all, last, new, k, images, word, image;
  all := Filtered(fixed, word -> Length(word) > 0);
  last := Set(Filtered(iterated, word -> Length(word) > 0));
  Append(all, last);
  for k in [1 .. depth] do
    new := [];
    for images in endos do
      for word in last do
        image := MappedWord(word, GeneratorsOfGroup(F), images);
        if Length(image) > 0 then
          AddSet(new, image);
        fi;
      od;
    od;
    last := Difference(new, all);
    Append(all, last);
  od;
  return all;
end;

# The quotient system, and the least time of so many calls, in microseconds.
Timed := function(G, prime, class, rounds)
  local system, least, k, from, took;
  least := infinity;
  for k in [1 .. rounds] do
    GASMAN("collect");
    from := NanosecondsSinceEpoch();
    system := PQuotient(G, prime, class, 4096 : noninteractive);
    took := NanosecondsSinceEpoch() - from;
    least := Minimum(least, QuoInt(took, 1000));
  od;
  return [system, least];
end;

# A word of a quotient system from a place of its list of generators and exponents on.
WordText := function(list, place)
  local parts, k;
  parts := [];
  for k in [place, place + 2 .. Length(list) - 1] do
    if list[k + 1] = 1 then
      Add(parts, Concatenation("a", String(list[k])));
    else
      Add(parts, Concatenation("a", String(list[k]), "^", String(list[k + 1])));
    fi;
  od;
  if Length(parts) = 0 then
    return "1";
  fi;
  return JoinStringsWithSeparator(parts, "*");
end;

DefinitionText := function(definition, names, prime)
  if IsList(definition) then
    return Concatenation("[a", String(definition[1]), ",a", String(definition[2]), "]");
  elif definition > 0 then
    return Concatenation("a", String(definition), "^", String(prime));
  fi;
  return Concatenation("image ", names[-definition]);
end;

# The lines of an answer text.
AnswerLines := function(names, system)
  local prime, rank, numbers, weights, lines, line, collector, i, j, side;
  prime := system!.prime;
  rank := system!.numberOfGenerators;
  collector := system!.collector;
  numbers := Filtered(RanksOfDescendingSeries(system), number -> number > 0);
  weights := Concatenation(List([1 .. Length(numbers)], k -> List([1 .. numbers[k]], i -> k)));
  lines := [];
  line := function(parts)
    Add(lines, Concatenation(List(parts, String)));
  end;
  line(["prime ", prime]);
  line(["class ", Length(numbers)]);
  line(["rank ", rank]);
  line(["order ", prime, "^", rank]);
  for i in [1 .. rank] do
    line(["generator a", i, " weight ", weights[i], " from ", DefinitionText(system!.definitions[i], names, prime)]);
  od;
  for i in [1 .. rank] do
    if IsBound(collector![SCP_POWERS][i]) then
      side := ExtRepOfObj(GetPowerNC(collector, i));
      if Length(side) > 0 then
        line(["relation a", i, "^", prime, " = ", WordText(side, 1)]);
      fi;
    fi;
  od;
  for j in [2 .. rank] do
    for i in [1 .. j - 1] do
      side := ExtRepOfObj(GetConjugateNC(collector, j, i));
      if Length(side) > 2 then
        line(["relation [a", j, ",a", i, "] = ", WordText(side, 3)]);
      fi;
    od;
  od;
  for i in [1 .. Length(names)] do
    line(["image ", names[i], " = ", WordText(ExtRepOfObj(system!.images[i]), 1)]);
  od;
  line(["end"]);
  return lines;
end;

# Writes the time, and then the answer text.
Answered := function(names, F, relators, prime, class, rounds)
  local timed, line;
  timed := Timed(F / relators, prime, class, rounds);
  Print("us ", timed[2], "\n");
  for line in AnswerLines(names, timed[1]) do
    Print(line, "\n");
  od;
end;

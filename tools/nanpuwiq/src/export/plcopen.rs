//! A function block as PLCopen XML (TC6, version 2.01), which programming systems import.
//!
//! The same block gives the same bytes: the date that the schema asks for is a fixed one.
use super::block::{Block, Enumeration, Kind, List, Value, Variable};

/// The form of a project file with one block and its types.
pub fn text(block: &Block) -> String {
    let types: String = block.types.iter().map(data_type).collect();
    let sections = [
        section("inputVars", &block.inputs),
        section("outputVars", &block.outputs),
        section("localVars", &block.locals),
        section("localVars constant=\"true\"", &block.constants),
    ];
    PROJECT
        .replace("@TYPES", &types)
        .replace("@SECTIONS", &sections.concat())
        .replace("@BODY", &escaped(&block.body))
        .replace("@TOP", &escaped(&block.top.join("\n")))
        .replace("@VERSION", nanpuwiq::VERSION)
        .replace('@', &block.name)
}

const PROJECT: &str = "\
<?xml version=\"1.0\" encoding=\"UTF-8\"?>
<project xmlns=\"http://www.plcopen.org/xml/tc6_0201\" xmlns:xhtml=\"http://www.w3.org/1999/xhtml\">
  <fileHeader companyName=\"Nanpuwiq\" productName=\"nanpuwiq\" productVersion=\"@VERSION\" creationDateTime=\"2000-01-01T00:00:00\"/>
  <contentHeader name=\"@\">
    <Comment>@TOP</Comment>
    <coordinateInfo>
      <fbd><scaling x=\"1\" y=\"1\"/></fbd>
      <ld><scaling x=\"1\" y=\"1\"/></ld>
      <sfc><scaling x=\"1\" y=\"1\"/></sfc>
    </coordinateInfo>
  </contentHeader>
  <types>
    <dataTypes>
@TYPES    </dataTypes>
    <pous>
      <pou name=\"@\" pouType=\"functionBlock\">
        <interface>
@SECTIONS          <documentation><xhtml:p>@TOP</xhtml:p></documentation>
        </interface>
        <body>
          <ST><xhtml:p>@BODY</xhtml:p></ST>
        </body>
      </pou>
    </pous>
  </types>
  <instances>
    <configurations/>
  </instances>
</project>
";

fn data_type(enumeration: &Enumeration) -> String {
    let mut text = format!(
        "      <dataType name=\"{}\">\n        <baseType>\n          <enum>\n            <values>\n",
        enumeration.name
    );
    for (number, (value, _)) in enumeration.values.iter().enumerate() {
        text += &format!("              <value name=\"{value}\" value=\"{number}\"/>\n");
    }
    let names: Vec<String> = enumeration.values.iter().map(|(value, name)| format!("{value}: {name}")).collect();
    let told = escaped(&format!("{}\n{}", enumeration.title, names.join("\n")));
    text + "            </values>\n          </enum>\n        </baseType>\n"
        + &format!("        <documentation><xhtml:p>{told}</xhtml:p></documentation>\n      </dataType>\n")
}

/// A list of variables; the element may have an attribute.
fn section(element: &str, variables: &[Variable]) -> String {
    let name = element.split(' ').next().unwrap_or(element);
    format!("          <{element}>\n{}          </{name}>\n", variables.iter().map(variable).collect::<String>())
}

fn variable(variable: &Variable) -> String {
    let Variable { name, kind, value, note } = variable;
    let (kind, value) = match (kind, value) {
        (Kind::Array(kind), Value::List(list)) => (array(kind, list.values.len()), array_value(list)),
        (Kind::Enumeration(name), _) => (format!("<derived name=\"{name}\"/>"), String::new()),
        (Kind::Plain(kind) | Kind::Array(kind), Value::One(value)) => (
            format!("<{kind}/>"),
            format!("              <initialValue><simpleValue value=\"{value}\"/></initialValue>\n"),
        ),
        (Kind::Plain(kind) | Kind::Array(kind), _) => (format!("<{kind}/>"), String::new()),
    };
    let note = match note.is_empty() {
        true => String::new(),
        false => format!("              <documentation><xhtml:p>{}</xhtml:p></documentation>\n", escaped(note)),
    };
    format!("            <variable name=\"{name}\">\n              <type>{kind}</type>\n{value}{note}            </variable>\n")
}

fn array(kind: &str, length: usize) -> String {
    let last = length.saturating_sub(1);
    format!("<array><dimension lower=\"0\" upper=\"{last}\"/><baseType><{kind}/></baseType></array>")
}

/// The values of an array, equal ones that follow each other together.
fn array_value(list: &List) -> String {
    let mut text = String::from("              <initialValue>\n                <arrayValue>\n");
    for run in list.values.chunk_by(|a, b| a == b) {
        let times = if run.len() == 1 { String::new() } else { format!(" repetitionValue=\"{}\"", run.len()) };
        text += &format!("                  <value{times}><simpleValue value=\"{}\"/></value>\n", run[0]);
    }
    text + "                </arrayValue>\n              </initialValue>\n"
}

fn escaped(text: &str) -> String {
    text.replace('&', "&amp;").replace('<', "&lt;").replace('>', "&gt;")
}

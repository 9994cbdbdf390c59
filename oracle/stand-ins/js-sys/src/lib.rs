//! Stand-in for what simulator/web.rs names.

pub struct Array;

impl FromIterator<wasm_bindgen::prelude::JsValue> for Array {
    fn from_iter<I: IntoIterator<Item = wasm_bindgen::prelude::JsValue>>(values: I) -> Self {
        values.into_iter().for_each(drop);
        Array
    }
}
